//! Check: whether a tree book holds the truth about a road book and a yard book.

use std::collections::BTreeMap;

use crate::kinds;
use crate::refusal::{refuse_unless, zero_work, AREA, DISAGREE, UNTRUE, WORK_WORDS};
use crate::road::{Distances, RoadBook};
use crate::tree::{Entry, Landmark, Stored, Tree};
use crate::yard::YardBook;
use crate::{road, tree, yard};

/// "The planner, in C, calls check": the refusal number, 0 if accepted.
pub fn check(road: &[u8], yard: &[u8], tree: &[u8], work: &mut [u32]) -> u32 {
    match tested(road, yard, tree, work.len()) {
        Ok(()) => {
            zero_work(work);
            0
        }
        Err(number) => number,
    }
}

/// "A tree passes beside a road book if check gives 0 for the two with some yard book and a full work area": only one
/// of the tree's own yards and kinds can give it.
pub fn passes(road: &[u8], tree: &[u8]) -> bool {
    let Ok(read) = tree::read_alone(tree) else {
        return false;
    };
    let yard = yard::write_version(kinds::VERSION, &read.yards_with_kinds(0));
    check(road, &yard, tree, &mut [0; WORK_WORDS]) == 0
}

/// "Books are tested in the order road, yard, tree, query, each through its own tests, a test between books
/// going with the later one; then the call's m, leaf limit and areas."
fn tested(road: &[u8], yard: &[u8], tree: &[u8], work: usize) -> Result<(), u32> {
    let road = road::read(road)?;
    let yards = yard::read(yard, road.junctions)?;
    let tree = tree::read(tree, road.junctions)?;
    refuse_unless(tree.yards_of(0) == yards.junctions(), DISAGREE)?;
    stored_values_are_true(&road, &tree)?;
    refuse_unless(kinds_are_true(&yards, &tree), UNTRUE)?;
    refuse_unless(work >= WORK_WORDS, AREA)
}

/// Test 9: "a stored distance, least or greatest isn't the true one".
fn stored_values_are_true(road: &RoadBook, tree: &Tree) -> Result<(), u32> {
    let mut distances = Distances::new(road);
    for (number, region) in tree.regions.iter().enumerate() {
        let yards = tree.yards_of(number);
        for landmark in &region.landmarks {
            let from = distances.from(landmark.junction);
            refuse_unless(is_true(landmark, &yards, from), UNTRUE)?;
        }
    }
    Ok(())
}

/// "one pair (distance u32, yard u16) per yard [...]; in an inner region, least and greatest distance to its yards".
fn is_true(landmark: &Landmark, yards: &[u16], from: &[u32]) -> bool {
    match &landmark.stored {
        Stored::List(list) => list
            .iter()
            .all(|entry| entry.distance == from[usize::from(entry.yard)]),
        stored => *stored == span(yards, from),
    }
}

/// Test 9: "a false kind byte in a tree fails the check by 9": of a yard in any list, or of a region, where "a bit is
/// set exactly if some yard in that region has it". The tree names the yard book's yards.
fn kinds_are_true(yards: &YardBook, tree: &Tree) -> bool {
    let yards = yards.yards.iter();
    let kinds: BTreeMap<u16, u8> = yards.map(|yard| (yard.junction, yard.kinds)).collect();
    let listed = |entry: &Entry| entry.kinds == kinds[&entry.yard];
    let region = |(number, region): (usize, &tree::Region)| {
        let of_yards = tree.yards_of(number).into_iter().map(|yard| kinds[&yard]);
        let mut entries = region.landmarks.iter().flat_map(Landmark::list);
        region.kinds == kinds::together(of_yards) && entries.all(listed)
    };
    tree.regions.iter().enumerate().all(region)
}

/// "least and greatest distance to its yards".
pub fn span(yards: &[u16], from: &[u32]) -> Stored {
    let distances = || yards.iter().map(|&yard| from[usize::from(yard)]);
    Stored::Span {
        least: distances().min().unwrap_or(0),
        greatest: distances().max().unwrap_or(0),
    }
}
