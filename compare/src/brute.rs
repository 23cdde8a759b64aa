//! The answer by brute force: all distances, all yards, sorted. Shares no search code.

use crate::query::{Aggregate, Query};
use crate::road::RoadBook;
use crate::search::Asked;
use crate::tree::{Region, Tree};

/// "the least total of seconds over all walks": roads are relaxed until nothing changes.
pub fn distances(road: &RoadBook, from: u16) -> Vec<u64> {
    let mut distance = vec![u64::MAX / 2; usize::from(road.junctions)];
    distance[usize::from(from)] = 0;
    let mut changed = true;
    while changed {
        changed = false;
        for road in &road.roads {
            let (low, high) = (usize::from(road.low), usize::from(road.high));
            for (here, there) in [(low, high), (high, low)] {
                let through = distance[here] + u64::from(road.seconds);
                if through < distance[there] {
                    distance[there] = through;
                    changed = true;
                }
            }
        }
    }
    distance
}

/// All distances between junctions.
pub fn all_distances(road: &RoadBook) -> Vec<Vec<u64>> {
    (0..road.junctions).map(|j| distances(road, j)).collect()
}

/// "the sum (code 0) or the maximum (code 1) over the crews".
fn aggregate(code: Aggregate, values: &[u64]) -> u64 {
    let mut total = 0;
    for &value in values {
        total = match code {
            Aggregate::Sum => total + value,
            Aggregate::Maximum if value > total => value,
            Aggregate::Maximum => total,
        };
    }
    total
}

/// "Of two yards with the same sum, the one whose furthest crew is nearer now comes first, and only then the lower
/// junction number": all yards in yard order, as (aggregate, yard).
pub fn ranked(all: &[Vec<u64>], yards: &[u16], query: &Query) -> Vec<(u64, u16)> {
    let mut ranked = Vec::new();
    for &yard in yards {
        let total = aggregate(query.aggregate, &to_crews(all, yard, query));
        ranked.push((total, furthest(all, yard, query), yard));
    }
    ranked.sort();
    let listed = |(total, _, yard)| (total, yard);
    ranked.into_iter().map(listed).collect()
}

/// A yard's distance to its furthest crew.
pub fn furthest(all: &[Vec<u64>], yard: u16, query: &Query) -> u64 {
    aggregate(Aggregate::Maximum, &to_crews(all, yard, query))
}

/// A yard's distances to the crews.
fn to_crews(all: &[Vec<u64>], yard: u16, query: &Query) -> Vec<u64> {
    let to_crew = |&crew: &u16| all[usize::from(crew)][usize::from(yard)];
    query.crews.iter().map(to_crew).collect()
}

/// "exactly the first k of the tree's yards (or all if fewer)".
pub fn first_k(all: &[Vec<u64>], yards: &[u16], query: &Query) -> Vec<(u64, u16)> {
    let mut ranked = ranked(all, yards, query);
    ranked.truncate(query.k);
    ranked
}

/// "exactly the tree's yards within the drive": "each yard whose aggregate is at most a given number of seconds".
pub fn within(all: &[Vec<u64>], yards: &[u16], query: &Query, seconds: u32) -> Vec<(u64, u16)> {
    let mut ranked = ranked(all, yards, query);
    ranked.retain(|&(aggregate, _)| aggregate <= u64::from(seconds));
    ranked
}

/// The first k yards or those within the drive, as is asked.
pub fn listed(asked: Asked, all: &[Vec<u64>], yards: &[u16], query: &Query) -> Vec<(u64, u16)> {
    match asked {
        Asked::FirstK => first_k(all, yards, query),
        Asked::Within(seconds) => within(all, yards, query, seconds),
    }
}

/// The list of a search for yards of the wanted kinds on a tree that passes.
pub fn list(
    asked: Asked,
    wanted: u8,
    road: &RoadBook,
    tree: &Tree,
    query: &Query,
) -> Vec<(u64, u16)> {
    let all = crew_distances(road, query);
    listed(asked, &all, &wanted_yards(tree, wanted), query)
}

/// "a yard is wanted if its byte in its leaf's first list shares a bit": all such yards of a tree, rising.
pub fn wanted_yards(tree: &Tree, wanted: u8) -> Vec<u16> {
    let mut yards = Vec::new();
    for region in &tree.regions {
        for entry in region.landmarks[0].list() {
            if (0..8).any(|bit| (entry.kinds >> bit) % 2 == 1 && (wanted >> bit) % 2 == 1) {
                yards.push(entry.yard);
            }
        }
    }
    yards.sort();
    yards
}

/// Of a tree's wanted yards those that can enter the queue: "Regions [...] without a wanted bit never enter". On a tree
/// that passes they are all of them.
pub fn entering_yards(tree: &Tree, wanted: u8) -> Vec<u16> {
    let mut yards = wanted_yards(tree, wanted);
    for number in 0..tree.regions.len() {
        if tree.regions[number].kinds & wanted == 0 {
            let hidden = tree.yards_of(number);
            yards.retain(|yard| !hidden.contains(yard));
        }
    }
    yards
}

/// The crews' distances, each at its junction's place; the others are left out.
pub fn crew_distances(road: &RoadBook, query: &Query) -> Vec<Vec<u64>> {
    let mut all = vec![Vec::new(); usize::from(road.junctions)];
    for &crew in &query.crews {
        all[usize::from(crew)] = distances(road, crew);
    }
    all
}

/// A yard's bound on a tree that passes, from all distances.
pub fn yard_bound(all: &[Vec<u64>], tree: &Tree, query: &Query, yard: u16) -> u64 {
    let mut landmarks = junctions(&tree.regions[0]);
    landmarks.push(picked(all, tree, query, yard));
    let mut values = Vec::new();
    for &crew in &query.crews {
        values.push(greatest_difference(all, &landmarks, crew, yard));
    }
    aggregate(query.aggregate, &values)
}

/// The landmark that a yard's leaf picks: "greatest sum of LB over crews, ties to the first".
fn picked(all: &[Vec<u64>], tree: &Tree, query: &Query, yard: u16) -> u16 {
    let sheet = junctions(&tree.regions[0]);
    let holds = |r: &&Region| r.children == 0 && r.first <= yard && yard < r.after;
    let leaf = tree.regions.iter().find(holds).map_or(vec![], junctions);
    let mut best: Option<(u64, u16)> = None;
    for landmark in leaf {
        let mut sum = 0;
        for &crew in &query.crews {
            sum += greatest_difference(all, &sheet, crew, landmark);
        }
        if best.is_none_or(|(most, _)| sum > most) {
            best = Some((sum, landmark));
        }
    }
    best.map_or(0, |(_, landmark)| landmark)
}

/// The junctions of a region's landmarks.
fn junctions(region: &Region) -> Vec<u16> {
    region.landmarks.iter().map(|l| l.junction).collect()
}

/// The greatest |d(l, u) − d(l, v)| over some landmarks l.
fn greatest_difference(all: &[Vec<u64>], landmarks: &[u16], u: u16, v: u16) -> u64 {
    let mut greatest = 0;
    for &landmark in landmarks {
        let row = &all[usize::from(landmark)];
        greatest = greatest.max(row[usize::from(u)].abs_diff(row[usize::from(v)]));
    }
    greatest
}
