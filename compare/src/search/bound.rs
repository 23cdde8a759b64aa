//! The sheet and the bounds.

use super::Search;
use crate::query::Aggregate;
use crate::road::RoadBook;
use crate::tree::{Entry, Tree};

/// "The sheet holds d from the root's landmarks r to every junction."
pub struct Sheet {
    rows: Vec<Vec<u32>>,
}

impl Sheet {
    /// "The sheet holds d from the root's landmarks r to every junction."
    pub fn new(road: &RoadBook, tree: &Tree) -> Self {
        let landmarks = tree.regions[0].landmarks.iter();
        let rows = landmarks.map(|l| road.least_distances(l.junction));
        Sheet {
            rows: rows.collect(),
        }
    }

    /// "LB(l, q) is the greatest difference of sheet values at l and q."
    pub fn lb(&self, l: u16, q: u16) -> u32 {
        let difference = |row: &Vec<u32>| row[usize::from(l)].abs_diff(row[usize::from(q)]);
        self.rows.iter().map(difference).max().unwrap_or(0)
    }

    /// "UB(l, q) is the least sum of sheet values at l and q."
    pub fn ub(&self, l: u16, q: u16) -> u64 {
        let sum = |row: &Vec<u32>| u64::from(row[usize::from(l)]) + u64::from(row[usize::from(q)]);
        self.rows.iter().map(sum).min().unwrap_or(0)
    }
}

/// "the crew's bound is LB − B if LB ≥ B, A − UB if UB ≤ A, else 0".
pub fn crew_bound(lb: u64, ub: u64, a: u64, b: u64) -> u64 {
    if lb >= b {
        return lb - b;
    }
    if ub <= a {
        return a - ub;
    }
    0
}

/// "The greatest over the region's landmarks is taken, then the aggregate over crews."
pub fn region_bound(search: &Search, number: usize) -> u64 {
    let crews = search.query.crews.iter();
    let bounds = crews.map(|&crew| crew_region_bound(search, number, crew));
    search.query.aggregate.over(bounds)
}

/// "The greatest over the region's landmarks is taken": one crew's bound.
fn crew_region_bound(search: &Search, number: usize, crew: u16) -> u64 {
    let mut greatest = 0;
    for landmark in &search.tree.regions[number].landmarks {
        let lb = u64::from(search.sheet.lb(landmark.junction, crew));
        let ub = search.sheet.ub(landmark.junction, crew);
        let (a, b) = landmark.least_and_greatest();
        greatest = greatest.max(crew_bound(lb, ub, u64::from(a), u64::from(b)));
    }
    greatest
}

/// "A region's key is the greater of this and its parent's key."
pub fn region_key(search: &Search, number: usize, parent_key: u64) -> u64 {
    region_bound(search, number).max(parent_key)
}

/// "A leaf when first taken picks its landmark with greatest sum of LB over crews, ties to the first."
///
/// The answer is the landmark's place in the leaf.
fn pick_landmark(search: &Search, number: usize) -> usize {
    let mut picked = 0;
    let mut greatest = 0;
    for (place, landmark) in search.tree.regions[number].landmarks.iter().enumerate() {
        let crews = search.query.crews.iter();
        let lb = |&crew: &u16| u64::from(search.sheet.lb(landmark.junction, crew));
        let sum = crews.map(lb).sum();
        if sum > greatest {
            greatest = sum;
            picked = place;
        }
    }
    picked
}

/// What a leaf goes by: the true distances from the landmark that it picks to the crews, and the wanted elements of
/// that landmark's list, by place.
pub struct Picked<'a> {
    pub crew_values: Vec<u32>,
    pub wanted: Vec<&'a Entry>,
}

/// "A leaf [...] picks its landmark" and "passes over its unwanted elements".
pub fn picked(search: &Search, number: usize) -> Picked<'_> {
    let region = &search.tree.regions[number];
    let landmark = &region.landmarks[pick_landmark(search, number)];
    let at_landmark = |row: &Vec<u32>| row[usize::from(landmark.junction)];
    let yards = region.wanted_yards(search.wanted);
    let is_wanted = |entry: &&Entry| yards.contains(&entry.yard);
    Picked {
        crew_values: search.crew_distances.iter().map(at_landmark).collect(),
        wanted: landmark.list().iter().filter(is_wanted).collect(),
    }
}

/// "f, the aggregate of |d(l, q) − d(l, p)| with the list's d(l, p)". "carry them in 32 bits": at most sixteen values,
/// none above 67,042,305.
pub fn f(aggregate: Aggregate, crew_values: &[u32], distance: u32) -> u32 {
    let difference = |value: &u32| value.abs_diff(distance);
    aggregate.over(crew_values.iter().map(difference))
}

/// "A yard's bound takes per crew the greatest of these differences over the sheet's landmarks and l (for l
/// with the list's distance), then aggregates."
pub fn yard_bound(search: &Search, crew_values: &[u32], distance: u32, yard: u16) -> u32 {
    let crews = search.query.crews.iter().zip(crew_values);
    let greatest = |(&crew, value): (&u16, &u32)| {
        let by_list = value.abs_diff(distance);
        search.sheet.lb(yard, crew).max(by_list)
    };
    search.query.aggregate.over(crews.map(greatest))
}
