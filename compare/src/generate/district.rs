//! Small random districts, yards, trees and queries.

use std::collections::BTreeMap;

use super::standard::in_order;
use super::Numbers;
use crate::build::{landmarks, tree_of_plan, Plan};
use crate::kinds;
use crate::query;
use crate::road::{self, Road, RoadBook};
use crate::tree::{Entry, Landmark, Stored, Tree, MOST_DISTANCE, MOST_LEVELS};
use crate::yard::{self, Yard, YardBook};

/// A district's road and yard books, both of which pass; the yard book's junctions, and all that it says.
pub struct District {
    pub road: Vec<u8>,
    pub yard: Vec<u8>,
    pub yards: Vec<u16>,
    pub book: YardBook,
    pub junctions: u16,
}

/// The longest road of a district may be so long.
const MOST_SECONDS: [u16; 6] = [1, 2, 3, 20, 1_000, 65_535];

/// A connected district of at most so many junctions.
pub fn district(numbers: &mut Numbers, most_junctions: u16) -> District {
    let most_seconds = MOST_SECONDS[numbers.between(0, 5) as usize];
    district_of(numbers, most_junctions, most_seconds)
}

/// The same with roads of 1 or 2 seconds, so that many yards have the same sum.
pub fn tied_district(numbers: &mut Numbers, most_junctions: u16) -> District {
    district_of(numbers, most_junctions, 2)
}

/// A connected district with roads of at most so many seconds.
fn district_of(numbers: &mut Numbers, most_junctions: u16, most_seconds: u16) -> District {
    let junctions = numbers.between16(1, most_junctions);
    let road = road::write(junctions, &roads(numbers, junctions, most_seconds));
    let yards = yards(numbers, junctions);
    let book = with_kinds(numbers, &yards);
    District {
        road,
        yard: yard::write_version(book.version, &book.yards),
        yards,
        book,
        junctions,
    }
}

/// Version 1, or version 2 with kinds: every kind; one of two; one of eight; one of eight by place, so that far yards
/// differ; any.
fn with_kinds(numbers: &mut Numbers, junctions: &[u16]) -> YardBook {
    let mut yards = yard::of_all_kinds(junctions);
    if numbers.once_in(2) {
        return YardBook { version: 1, yards };
    }
    let (way, count) = (numbers.between(0, 8), yards.len());
    for (place, yard) in yards.iter_mut().enumerate() {
        yard.kinds = match way {
            0 => kinds::ALL,
            1 | 2 => 1 << numbers.between(0, 1),
            3 | 4 => 1 << numbers.between(0, 7),
            5 | 6 => 1 << (8 * place / count),
            _ => numbers.between(1, 255) as u8,
        };
    }
    YardBook {
        version: kinds::VERSION,
        yards,
    }
}

/// A byte of wanted kinds: every kind, one kind, any kinds, or at times none.
pub fn wanted(numbers: &mut Numbers) -> u8 {
    match numbers.between(0, 15) {
        0 => 0,
        1..=4 => kinds::ALL,
        5..=9 => 1 << numbers.between(0, 7),
        10 | 11 => 1 << numbers.between(0, 1),
        _ => numbers.any() as u8,
    }
}

/// Each junction is joined to an earlier one, near or any; then some more roads.
fn roads(numbers: &mut Numbers, junctions: u16, most_seconds: u16) -> Vec<Road> {
    let reach = [1, 4, 1_024][numbers.between(0, 2) as usize];
    let mut roads = BTreeMap::new();
    for high in 1..junctions {
        let low = numbers.between16(high.saturating_sub(reach), high - 1);
        roads.insert((low, high), numbers.between16(1, most_seconds));
    }
    let more = numbers.between(0, u64::from(junctions) - 1);
    for _ in 0..more {
        let high = numbers.between16(1, junctions - 1);
        let low = numbers.between16(high.saturating_sub(reach), high - 1);
        roads.insert((low, high), numbers.between16(1, most_seconds));
    }
    in_order(roads)
}

/// One yard up to all that a book may have.
fn yards(numbers: &mut Numbers, junctions: u16) -> Vec<u16> {
    let most = junctions.min(256);
    let count = match numbers.between(0, 3) {
        0 => most,
        1 => numbers.between16(1, most.min(4)),
        _ => numbers.between16(1, most),
    };
    numbers.some_below(count, junctions)
}

/// A query that passes in a district of so many junctions.
pub fn query_book(numbers: &mut Numbers, junctions: u16) -> Vec<u8> {
    let crews = match numbers.between(0, 3) {
        0 => numbers.between(1, 16),
        _ => numbers.between(1, 3),
    };
    let crews: Vec<u16> = (0..crews)
        .map(|_| numbers.between16(0, junctions - 1))
        .collect();
    let k = match numbers.between(0, 3) {
        0 => numbers.between(1, 64),
        _ => numbers.between(1, 4),
    };
    let limit = match numbers.between(0, 3) {
        0 => numbers.between(0, 12) as u32,
        1 => numbers.between(0, 100) as u32,
        2 => 1_000,
        _ => u32::MAX,
    };
    query::write(numbers.between(0, 1) as u8, k as u8, limit, &crews)
}

/// A query for two to five crews, mostly by the sum and with steps enough, for some of so many yards.
pub fn tied_query(numbers: &mut Numbers, junctions: u16, yards: usize) -> Vec<u8> {
    let crews = numbers.between(2, 5);
    let crews: Vec<u16> = (0..crews)
        .map(|_| numbers.between16(0, junctions - 1))
        .collect();
    let k = numbers.between(1, yards.min(64) as u64) as u8;
    let limit = match numbers.once_in(8) {
        true => numbers.between(0, 60) as u32,
        false => u32::MAX,
    };
    let aggregate = u8::from(numbers.once_in(6));
    query::write(aggregate, k, limit, &crews)
}

/// A tree that passes, cut at random places, with landmarks at random places or by build's rule.
pub fn random_tree(numbers: &mut Numbers, road: &RoadBook, book: &YardBook) -> Tree {
    let (m, yards) = (numbers.between(1, 4) as u8, &book.yards);
    let first = numbers.between16(0, yards[0].junction);
    let last = yards[yards.len() - 1].junction;
    let after = numbers.between16(last + 1, road.junctions);
    let plan = random_plan(numbers, first, after, yards, MOST_LEVELS);
    let mut choose = |plan: &Plan| match numbers.between(0, 3) {
        0 => landmarks(road, plan.first, plan.after, m),
        _ => (0..m)
            .map(|_| numbers.between16(plan.first, plan.after - 1))
            .collect(),
    };
    tree_of_plan(road, &plan, book.version, m, &mut choose)
}

/// A leaf, or two to four parts with yards, as far as levels remain.
fn random_plan(numbers: &mut Numbers, first: u16, after: u16, yards: &[Yard], levels: u32) -> Plan {
    let mut parts = Vec::new();
    if levels > 1 && yards.len() > 1 && !numbers.once_in(4) {
        let most = yards.len().min(4) as u16;
        let count = numbers.between16(2, most);
        let mut lowest = first;
        for part in groups(numbers, yards, count) {
            let next = part.1;
            let first = numbers.between16(lowest, part.0[0].junction);
            let end = part.0[part.0.len() - 1].junction + 1;
            let after = numbers.between16(end, next.unwrap_or(after));
            parts.push(random_plan(numbers, first, after, part.0, levels - 1));
            lowest = after;
        }
    }
    Plan::new(first, after, yards, parts)
}

/// Yards in so many groups, each with the first yard of the next group.
fn groups<'a>(
    numbers: &mut Numbers,
    yards: &'a [Yard],
    count: u16,
) -> Vec<(&'a [Yard], Option<u16>)> {
    let mut cuts = numbers.some_below(count - 1, yards.len() as u16 - 1);
    cuts.push(yards.len() as u16 - 1);
    let mut start = 0;
    let mut groups = Vec::new();
    for cut in cuts {
        let end = usize::from(cut) + 1;
        let next = yards.get(end).map(|yard| yard.junction);
        groups.push((&yards[start..end], next));
        start = end;
    }
    groups
}

/// A tree of the same shape with some stored values changed: distances, in version 2 kinds, or both; check refuses it
/// by 9 unless none changed.
pub fn false_tree(numbers: &mut Numbers, tree: &Tree) -> Tree {
    let mut tree = tree.clone();
    let what = match kinds::size(tree.version) {
        0 => 0,
        _ => numbers.between(0, 2),
    };
    if what != 1 {
        change_distances(numbers, &mut tree);
    }
    if what != 0 {
        change_kinds(numbers, &mut tree);
    }
    tree
}

/// Some landmarks with other distances.
fn change_distances(numbers: &mut Numbers, tree: &mut Tree) {
    let often = numbers.between(1, 6);
    for landmark in tree.regions.iter_mut().flat_map(|r| &mut r.landmarks) {
        if numbers.once_in(often) {
            change_stored(numbers, landmark);
        }
    }
}

/// Some regions and list entries with other kinds, each by itself: regions may lie, and lists disagree.
fn change_kinds(numbers: &mut Numbers, tree: &mut Tree) {
    let often = numbers.between(1, 6);
    for region in &mut tree.regions {
        if numbers.once_in(often) {
            region.kinds = other_kinds(numbers, region.kinds);
        }
        for landmark in &mut region.landmarks {
            let Stored::List(list) = &mut landmark.stored else {
                continue;
            };
            for entry in list {
                if numbers.once_in(often) {
                    entry.kinds = other_kinds(numbers, entry.kinds);
                }
            }
        }
    }
}

/// A bit more or less, or any byte, but not 0.
fn other_kinds(numbers: &mut Numbers, kinds: u8) -> u8 {
    let other = match numbers.between(0, 3) {
        0 => numbers.any() as u8,
        _ => kinds ^ (1 << numbers.between(0, 7)),
    };
    other.max(1)
}

/// Other stored values that pass test 5 and name the same yards.
fn change_stored(numbers: &mut Numbers, landmark: &mut Landmark) {
    match &mut landmark.stored {
        Stored::List(list) => {
            for entry in list.iter_mut() {
                let distance = other_distance(numbers, entry.distance);
                entry.distance = distance.min(MOST_DISTANCE);
            }
            list.sort_unstable_by_key(Entry::pair);
        }
        Stored::Span { least, greatest } => {
            let one = other_distance(numbers, *least);
            let other = other_distance(numbers, *greatest);
            *least = one.min(other);
            *greatest = one.max(other);
        }
    }
}

/// A distance near the old one, the same, 0, the greatest, or any.
fn other_distance(numbers: &mut Numbers, distance: u32) -> u32 {
    match numbers.between(0, 6) {
        0 => 0,
        1 => u32::MAX,
        2 => numbers.any() as u32,
        3 => distance,
        4 => distance / 2,
        _ => distance.saturating_add(numbers.between(0, 9) as u32),
    }
}

/// The road book of a chain with these seconds.
pub fn chain(seconds: &[u16]) -> Vec<u8> {
    let road = |(low, &seconds): (usize, &u16)| Road {
        low: low as u16,
        high: low as u16 + 1,
        seconds,
    };
    let roads: Vec<Road> = seconds.iter().enumerate().map(road).collect();
    road::write(seconds.len() as u16 + 1, &roads)
}
