//! Build: the tree of a road book and a yard book.

use crate::check::span;
use crate::kinds;
use crate::refusal::{refuse_unless, zero_work, AREA, PARAMETER, WORK_WORDS};
use crate::road::{Distances, RoadBook};
use crate::tree::{Entry, Landmark, Region, Stored, Tree};
use crate::yard::{Yard, YardBook};
use crate::{road, tree, yard};

/// "a built tree's area below 21,981 bytes": of a version 1 build.
pub const AREA_BYTES: usize = 21_981;
/// "The version 2 build area must hold 23,516 bytes."
pub const KINDS_AREA_BYTES: usize = 23_516;

/// What build returns: "Build returns the tree's length."
#[derive(Clone, Copy, Debug, Default, PartialEq, Eq)]
pub struct Built {
    pub refusal: u32,
    pub length: u32,
}

/// The bytes that a build of this version must be lent.
pub fn area_bytes(version: u8) -> usize {
    match version {
        1 => AREA_BYTES,
        _ => KINDS_AREA_BYTES,
    }
}

/// "The planner, in C, calls build"; "Bytes after a built tree stay."
pub fn build(
    road: &[u8],
    yard: &[u8],
    m: u32,
    leaf_limit: u32,
    work: &mut [u32],
    area: &mut [u8],
) -> Built {
    match tested(road, yard, m, leaf_limit, work.len(), area.len()) {
        Ok((road, yards)) => {
            let book = tree::write(&built_tree(&road, &yards, m as u8, leaf_limit as usize));
            area[..book.len()].copy_from_slice(&book);
            zero_work(work);
            Built {
                refusal: 0,
                length: book.len() as u32,
            }
        }
        Err(refusal) => Built { refusal, length: 0 },
    }
}

/// "Books are tested in the order road, yard, tree, query, each through its own tests, a test between books
/// going with the later one; then the call's m, leaf limit and areas."
fn tested(
    road: &[u8],
    yard: &[u8],
    m: u32,
    leaf_limit: u32,
    work: usize,
    area: usize,
) -> Result<(RoadBook, YardBook), u32> {
    let road = road::read(road)?;
    let yards = yard::read(yard, road.junctions)?;
    refuse_unless((1..=4).contains(&m), PARAMETER)?;
    refuse_unless((1..=256).contains(&leaf_limit), PARAMETER)?;
    let needed = area_bytes(yards.version);
    refuse_unless(work >= WORK_WORDS && area >= needed, AREA)?;
    Ok((road, yards))
}

/// A range of junctions, its yards, and the parts that it is cut into; a leaf has none.
pub struct Plan {
    pub first: u16,
    pub after: u16,
    pub yards: Vec<Yard>,
    pub parts: Vec<Plan>,
}

impl Plan {
    /// A range with its yards and parts.
    pub fn new(first: u16, after: u16, yards: &[Yard], parts: Vec<Plan>) -> Self {
        let yards = yards.to_vec();
        Plan {
            first,
            after,
            yards,
            parts,
        }
    }
}

/// "Given m (1 to 4) and a leaf limit (1 to 256). The first range is all junctions." "a build writes its yard book's
/// version".
fn built_tree(road: &RoadBook, yards: &YardBook, m: u8, leaf_limit: usize) -> Tree {
    let plan = plan(0, road.junctions, &yards.yards, leaf_limit);
    let choose = &mut |plan: &Plan| landmarks(road, plan.first, plan.after, m);
    tree_of_plan(road, &plan, yards.version, m, choose)
}

/// The tree book of a plan, each region with the landmarks chosen for it.
pub fn tree_of_plan(
    road: &RoadBook,
    plan: &Plan,
    version: u8,
    m: u8,
    choose: &mut dyn FnMut(&Plan) -> Vec<u16>,
) -> Tree {
    let mut regions = Vec::new();
    preorder(plan, choose, &mut Distances::new(road), &mut regions);
    Tree {
        version,
        junctions: road.junctions,
        yards: plan.yards.len() as u16,
        m,
        regions,
    }
}

/// "A range starting at a with s junctions is a leaf if it has no more yards than the limit. Otherwise it is
/// cut [...]. Parts without yards are dropped; a region with one child is replaced by the child, whose range
/// and landmarks stay."
fn plan(first: u16, after: u16, yards: &[Yard], leaf_limit: usize) -> Plan {
    let mut parts = Vec::new();
    if yards.len() > leaf_limit {
        for (first, after) in cut(first, after) {
            let inside = within(yards, first, after);
            if !inside.is_empty() {
                parts.push(plan(first, after, &inside, leaf_limit));
            }
        }
    }
    if parts.len() == 1 {
        return parts.remove(0);
    }
    Plan::new(first, after, yards, parts)
}

/// "it is cut at a + floor(i × s / 4), i from 0 to 4".
fn cut(first: u16, after: u16) -> [(u16, u16); 4] {
    let size = after - first;
    let at = |i: u16| first + i * size / 4;
    [0, 1, 2, 3].map(|i| (at(i), at(i + 1)))
}

/// The yards of a range.
fn within(yards: &[Yard], first: u16, after: u16) -> Vec<Yard> {
    let inside = |yard: &Yard| (first..after).contains(&yard.junction);
    yards.iter().copied().filter(inside).collect()
}

/// "Border junctions (with a road out of the range) in rising order, c of them, give landmark j, from 0 to
/// m − 1, as number floor(j × c / m) of them, counted from 0; with c = 0 it is junction a + floor(j × s / m)."
pub fn landmarks(road: &RoadBook, first: u16, after: u16, m: u8) -> Vec<u16> {
    let border = road.border(first, after);
    let m = usize::from(m);
    let size = usize::from(after - first);
    let landmark = |j: usize| match border.len() {
        0 => first + (j * size / m) as u16,
        c => border[j * c / m],
    };
    (0..m).map(landmark).collect()
}

/// "then regions in preorder".
fn preorder(
    plan: &Plan,
    choose: &mut dyn FnMut(&Plan) -> Vec<u16>,
    distances: &mut Distances,
    regions: &mut Vec<Region>,
) {
    let mut landmarks = Vec::new();
    for junction in choose(plan) {
        let stored = stored(plan, distances.from(junction));
        landmarks.push(Landmark { junction, stored });
    }
    regions.push(Region {
        first: plan.first,
        after: plan.after,
        children: plan.parts.len() as u8,
        yards: plan.yards.len() as u16,
        kinds: kinds::together(plan.yards.iter().map(|yard| yard.kinds)),
        landmarks,
    });
    for part in &plan.parts {
        preorder(part, choose, distances, regions);
    }
}

/// "in a leaf, one pair (distance u32, yard u16) per yard, rising strictly by distance and then yard; in an
/// inner region, least and greatest distance to its yards". "a yard's kind byte after each of its list entries".
fn stored(plan: &Plan, from: &[u32]) -> Stored {
    if !plan.parts.is_empty() {
        let yards: Vec<u16> = plan.yards.iter().map(|yard| yard.junction).collect();
        return span(&yards, from);
    }
    let entry = |yard: &Yard| Entry {
        distance: from[usize::from(yard.junction)],
        yard: yard.junction,
        kinds: yard.kinds,
    };
    let mut list: Vec<Entry> = plan.yards.iter().map(entry).collect();
    list.sort_unstable_by_key(Entry::pair);
    Stored::List(list)
}
