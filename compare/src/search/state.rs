//! A search's state, its steps, and when it is settled.

use std::collections::{BTreeMap, BTreeSet, VecDeque};

use super::bound::{f, picked, region_key, yard_bound};
use super::measure::{measure, Drive, Measured};
use super::{Asked, Measuring, Search};
use crate::tree::Entry;

/// "at equal keys a region precedes a yard, then lower number first": the order of the cases is this order.
#[derive(Clone, Copy, Debug, PartialEq, Eq, PartialOrd, Ord)]
pub enum Item {
    Region(usize),
    Yard(u16),
}

/// A held yard. "Of two yards with the same sum, the one whose furthest crew is nearer now comes first, and only then
/// the lower junction number": the order of the fields is yard order.
#[derive(Clone, Copy, Debug, PartialEq, Eq, PartialOrd, Ord)]
pub struct Held {
    pub drive: Drive,
    pub yard: u16,
}

impl Held {
    /// The aggregate, which is what the list says of the yard.
    pub fn distance(&self) -> u32 {
        self.drive.distance
    }
}

/// "One step is a function of its own: from a search's state, which keeps the queue, the held yards and the
/// measured yards". The leaves already taken are kept too, with what they still have, and how many junctions the
/// measured yards' ways have walked on from.
pub struct State {
    pub queue: BTreeSet<(u64, Item)>,
    pub held: Vec<Held>,
    pub measured: Vec<u16>,
    pub walked_on: usize,
    leaves: BTreeMap<usize, Leaf>,
}

/// A leaf already taken: its first key, the true distances from its landmark to the crews, the wanted elements left.
struct Leaf {
    first_key: u64,
    crew_values: Vec<u32>,
    elements: VecDeque<Element>,
}

/// A list's element: its f, its stored distance and its yard.
struct Element {
    f: u32,
    distance: u32,
    yard: u16,
}

impl State {
    /// "The queue starts with the root." A root without a wanted bit "settles empty with 0 taken".
    pub fn start(search: &Search) -> Self {
        let root = (region_key(search, 0, 0), Item::Region(0));
        State {
            queue: search.admits(0).then_some(root).into_iter().collect(),
            held: Vec::new(),
            measured: Vec::new(),
            walked_on: 0,
            leaves: BTreeMap::new(),
        }
    }

    /// "The search is settled when the queue is empty, or [...] every queued key is above" what it goes by.
    pub fn settled(&self, search: &Search) -> bool {
        let Some(&(least_key, _)) = self.queue.first() else {
            return true;
        };
        let ceiling = self.ceiling(search);
        ceiling.is_some_and(|ceiling| least_key > u64::from(ceiling))
    }

    /// What every queued key must be above, and what a yard is measured up to: "the k-th held distance, or no ceiling
    /// until k are held; the drive search its seconds".
    fn ceiling(&self, search: &Search) -> Option<u32> {
        match search.asked {
            Asked::FirstK => self.held.get(search.query.k - 1).map(Held::distance),
            Asked::Within(seconds) => Some(seconds),
        }
    }
}

/// "One step takes the least key; at equal keys a region precedes a yard, then lower number first."
pub fn step(search: &Search, mut state: State) -> State {
    match state.queue.pop_first() {
        Some((key, Item::Region(number))) if search.tree.regions[number].is_leaf() => {
            take_leaf(search, &mut state, key, number)
        }
        Some((key, Item::Region(number))) => take_inner(search, &mut state, key, number),
        Some((_, Item::Yard(yard))) => take_yard(search, &mut state, yard),
        None => (),
    }
    state
}

/// "An inner region queues its children." "Regions [...] without a wanted bit never enter the queue".
fn take_inner(search: &Search, state: &mut State, key: u64, number: usize) {
    let children = search.tree.children(number).into_iter();
    for child in children.filter(|&child| search.admits(child)) {
        let child_key = region_key(search, child, key);
        state.queue.insert((child_key, Item::Region(child)));
    }
}

/// "A leaf queues its next yard and, if any remain, itself, with the greater of its first key and the next f."
/// "Its key [the yard's] is the greater of its bound and the leaf's first key." "its next yard, the next f and whether
/// any remain concern wanted ones alone"; "A leaf without any wanted yard queues nothing when taken."
fn take_leaf(search: &Search, state: &mut State, key: u64, number: usize) {
    let leaf = state
        .leaves
        .entry(number)
        .or_insert_with(|| first_taken(search, key, number));
    if let Some(next) = leaf.elements.pop_front() {
        let bound = yard_bound(search, &leaf.crew_values, next.distance, next.yard);
        let yard_key = leaf.first_key.max(u64::from(bound));
        state.queue.insert((yard_key, Item::Yard(next.yard)));
    }
    if let Some(next) = leaf.elements.front() {
        let leaf_key = leaf.first_key.max(u64::from(next.f));
        state.queue.insert((leaf_key, Item::Region(number)));
    }
}

/// "A leaf when first taken picks its landmark [...]. Its list's elements leave by f, [...] then by place." It "passes
/// over its unwanted elements".
fn first_taken(search: &Search, key: u64, number: usize) -> Leaf {
    let leaf = picked(search, number);
    let element = |entry: &&Entry| Element {
        f: f(search.query.aggregate, &leaf.crew_values, entry.distance),
        distance: entry.distance,
        yard: entry.yard,
    };
    let mut elements: Vec<Element> = leaf.wanted.iter().map(element).collect();
    elements.sort_by_key(|element| element.f); // stable, so equal f stay by place
    Leaf {
        first_key: key,
        crew_values: leaf.crew_values,
        elements: elements.into(),
    }
}

/// "A yard is measured by true distances", and held at its place in yard order as far as the search keeps it. "A yard
/// answered "above" still counts as measured."
fn take_yard(search: &Search, state: &mut State, yard: u16) {
    state.measured.push(yard);
    if let Measured::Exact(drive) = measured(search, state, yard) {
        let new = Held { drive, yard };
        let place = state.held.partition_point(|held| *held < new);
        state.held.insert(place, new);
        state.held.truncate(kept(search, &state.held));
    }
}

/// A yard's answer in the search's way of measuring.
fn measured(search: &Search, state: &mut State, yard: u16) -> Measured {
    let ceiling = match search.measuring {
        Measuring::Ways => state.ceiling(search),
        Measuring::WaysWithoutCeiling => None,
        Measuring::WholeWalks => return Measured::Exact(walked_drive(search, yard)),
        Measuring::Rows => return Measured::Exact(true_drive(search, yard)),
    };
    let rows = &search.crew_distances;
    let (measured, ways) = measure(&search.road, rows, &search.query, ceiling, yard);
    state.walked_on += ways.iter().map(|way| way.walked_on.len()).sum::<usize>();
    measured
}

/// How many of some yards in yard order are kept: "the k least"; in a drive search "each yard whose aggregate
/// is at most a given number of seconds".
fn kept(search: &Search, yards: &[Held]) -> usize {
    match search.asked {
        Asked::FirstK => search.query.k,
        Asked::Within(seconds) => yards.partition_point(|held| held.distance() <= seconds),
    }
}

/// A yard's drive by a whole walk from it.
fn walked_drive(search: &Search, yard: u16) -> Drive {
    let from_yard = search.road.least_distances(yard);
    let to_crews = search.query.crews.iter();
    let distances = to_crews.map(|&crew| from_yard[usize::from(crew)]);
    Drive::over(search.query.aggregate, distances)
}

/// A yard's drive by the crews' rows.
pub fn true_drive(search: &Search, yard: u16) -> Drive {
    let to_yard = |row: &Vec<u32>| row[usize::from(yard)];
    let distances = search.crew_distances.iter().map(to_yard);
    Drive::over(search.query.aggregate, distances)
}
