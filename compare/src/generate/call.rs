//! Random calls: sound ones, and ones with a damaged or changed book, with books that disagree, or with a short area.

use super::change::{changed_query, changed_road, changed_tree, changed_yard};
use super::damage::{random_damage, Call};
use super::district::{district, tied_district, District};
use super::district::{false_tree, query_book, random_tree, tied_query, wanted};
use super::Numbers;
use crate::build::{area_bytes, build, AREA_BYTES, KINDS_AREA_BYTES};
use crate::kinds::ALL;
use crate::refusal::WORK_WORDS;
use crate::road::{self, RoadBook};
use crate::search::Asked;
use crate::tree::{self, Tree};
use crate::{brute, query};

/// A check; the district has at most so many junctions.
pub fn random_check(numbers: &mut Numbers, most_junctions: u16) -> Call {
    let d = district(numbers, most_junctions);
    let roads = roads_of(&d);
    let tree = some_tree(numbers, &d, &roads);
    let yard = other_yard(numbers, &d);
    Call::Check {
        road: other_road(numbers, &d, &roads),
        yard,
        tree: other_tree(numbers, &tree),
        work: area(numbers, WORK_WORDS),
    }
}

/// A build; the district has at most so many junctions.
pub fn random_build(numbers: &mut Numbers, most_junctions: u16) -> Call {
    let d = district(numbers, most_junctions);
    let roads = roads_of(&d);
    Call::Build {
        road: other_road(numbers, &d, &roads),
        yard: other_yard(numbers, &d),
        m: parameter(numbers, 4),
        leaf_limit: parameter(numbers, 256),
        work: area(numbers, WORK_WORDS),
        area: tree_area(numbers, d.book.version),
    }
}

/// A search for k yards; the district has at most so many junctions.
pub fn random_search(numbers: &mut Numbers, most_junctions: u16) -> Call {
    random_asked(numbers, most_junctions, false)
}

/// A drive search; the district has at most so many junctions.
pub fn random_within(numbers: &mut Numbers, most_junctions: u16) -> Call {
    random_asked(numbers, most_junctions, true)
}

/// A search, for k yards or within a drive.
fn random_asked(numbers: &mut Numbers, most_junctions: u16, drive: bool) -> Call {
    let d = district(numbers, most_junctions);
    let roads = roads_of(&d);
    let tree = some_tree(numbers, &d, &roads);
    let tree = if numbers.once_in(3) {
        other_tree(numbers, &tree)
    } else {
        tree::write(&tree)
    };
    let query = query_book(numbers, d.junctions);
    let (asked, listed) = if drive {
        let seconds = seconds(numbers, &roads, &d.yards, &query);
        (Asked::Within(seconds), d.yards.len())
    } else {
        (Asked::FirstK, usize::from(query[6]))
    };
    Call::Search {
        asked,
        wanted: wanted(numbers),
        road: other_road(numbers, &d, &roads),
        tree,
        results: area(numbers, 2 * listed),
        query: other_query(numbers, query, d.junctions),
        work: area(numbers, WORK_WORDS),
    }
}

/// A search, for k yards or within a drive, where many yards have the same sum; of its books the tree may be false.
pub fn tied_search(numbers: &mut Numbers, most_junctions: u16) -> Call {
    let d = tied_district(numbers, most_junctions);
    let roads = roads_of(&d);
    let tree = some_tree(numbers, &d, &roads);
    let query = tied_query(numbers, d.junctions, d.yards.len());
    let asked = match numbers.once_in(2) {
        true => Asked::FirstK,
        false => Asked::Within(seconds(numbers, &roads, &d.yards, &query)),
    };
    Call::Search {
        asked,
        wanted: if numbers.once_in(4) {
            wanted(numbers)
        } else {
            ALL
        },
        tree: tree::write(&tree),
        results: 2 * d.yards.len(),
        road: d.road,
        query,
        work: WORK_WORDS,
    }
}

/// A drive's seconds: a yard's aggregate, one less or one more, seldom the least, the greatest or any number.
pub fn seconds(numbers: &mut Numbers, road: &RoadBook, yards: &[u16], query: &[u8]) -> u32 {
    let query = query::read(query, road.junctions).expect("the query passes");
    let ranked = brute::ranked(&brute::crew_distances(road, &query), yards, &query);
    let place = numbers.between(0, ranked.len() as u64 - 1) as usize;
    let aggregate = ranked[place].0 as u32;
    match numbers.between(0, 11) {
        0 => 0,
        1 => u32::MAX,
        2 => numbers.any() as u32,
        3..=5 => aggregate.saturating_sub(1),
        6 => aggregate + 1,
        _ => aggregate,
    }
}

/// The roads of a district, whose book passes.
fn roads_of(d: &District) -> RoadBook {
    road::read(&d.road).expect("a district's road book passes")
}

/// A tree of the district: built or of random cuts, at times with false numbers.
fn some_tree(numbers: &mut Numbers, d: &District, roads: &RoadBook) -> Tree {
    let tree = if numbers.once_in(2) {
        random_tree(numbers, roads, &d.book)
    } else {
        built_tree(numbers, d)
    };
    if numbers.once_in(6) {
        false_tree(numbers, &tree)
    } else {
        tree
    }
}

/// Build's tree for some m and leaf limit.
fn built_tree(numbers: &mut Numbers, d: &District) -> Tree {
    let m = numbers.between(1, 4) as u32;
    let leaf_limit = numbers.between(1, 8) as u32;
    let mut area = vec![0; KINDS_AREA_BYTES];
    let built = build(
        &d.road,
        &d.yard,
        m,
        leaf_limit,
        &mut [0; WORK_WORDS],
        &mut area,
    );
    tree::read(&area[..built.length as usize], d.junctions).expect("a built tree passes")
}

/// The road book, seldom changed or damaged.
fn other_road(numbers: &mut Numbers, d: &District, roads: &RoadBook) -> Vec<u8> {
    match numbers.between(0, 11) {
        0 => random_damage(numbers, &d.road),
        1 => changed_road(numbers, d.junctions, &roads.roads),
        _ => d.road.clone(),
    }
}

/// The yard book, seldom changed or damaged.
fn other_yard(numbers: &mut Numbers, d: &District) -> Vec<u8> {
    match numbers.between(0, 11) {
        0 => random_damage(numbers, &d.yard),
        1 => changed_yard(numbers, &d.book),
        _ => d.yard.clone(),
    }
}

/// The tree book, often changed or damaged.
fn other_tree(numbers: &mut Numbers, tree: &Tree) -> Vec<u8> {
    match numbers.between(0, 5) {
        0 => random_damage(numbers, &tree::write(tree)),
        1 | 2 => changed_tree(numbers, tree),
        _ => tree::write(tree),
    }
}

/// The query book, seldom changed or damaged.
fn other_query(numbers: &mut Numbers, query: Vec<u8>, junctions: u16) -> Vec<u8> {
    match numbers.between(0, 11) {
        0 => random_damage(numbers, &query),
        1 => changed_query(numbers, junctions),
        _ => query,
    }
}

/// An area's length: what is needed, a little more, or seldom less.
fn area(numbers: &mut Numbers, needed: usize) -> usize {
    match numbers.between(0, 15) {
        0 => numbers.between(0, needed as u64 - 1) as usize,
        1 => needed - 1,
        2..=5 => needed + numbers.between(1, 40) as usize,
        _ => needed,
    }
}

/// A build's area: what a version needs, a little more, or seldom less; seldom what version 1 needs.
fn tree_area(numbers: &mut Numbers, version: u8) -> usize {
    match numbers.once_in(16) {
        true => AREA_BYTES,
        false => area(numbers, area_bytes(version)),
    }
}

/// A number from 1 to most, at times small, seldom outside.
fn parameter(numbers: &mut Numbers, most: u64) -> u32 {
    match numbers.between(0, 23) {
        0 => 0,
        1 => most as u32 + 1,
        2 => numbers.any() as u32,
        3..=12 => numbers.between(1, most.min(8)) as u32,
        _ => numbers.between(1, most) as u32,
    }
}
