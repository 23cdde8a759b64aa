//! Books of full size for measurements, each from a kind and a seed.

use std::collections::BTreeMap;

use super::Numbers;
use crate::kinds;
use crate::road::{self, Road};
use crate::yard::{self, Yard};

/// The junctions of every book here.
const JUNCTIONS: u16 = 1_024;
/// The longest road.
const MOST_SECONDS: u16 = 65_535;
/// Each road of the even grid, which no seed changes.
const EVEN_SECONDS: u16 = 60;
/// The grids' rows, and the junctions of each.
const SIDE: u16 = 32;

/// The kinds of road book, by name.
pub const KINDS: [&str; 7] = [
    "grid",
    "random",
    "star",
    "chain",
    "ring",
    "longchain",
    "even",
];

/// The road book of a kind and a seed; none for an unknown kind.
pub fn road_book(kind: &str, seed: u32) -> Option<Vec<u8>> {
    let roads = match kind {
        "grid" => grid(seeded(seed)),
        "random" => random(seed),
        "star" => joined(seed, |high| (0, high)),
        "chain" => joined(seed, |high| (high - 1, high)),
        "ring" => ring(seed),
        "longchain" => long_chain(),
        "even" => grid(|| EVEN_SECONDS),
        _ => return None,
    };
    Some(road::write(JUNCTIONS, &roads))
}

/// "a square grid, junction = row × side + column, roads to the right and lower neighbours in the book's order." With
/// the same seconds for each road many yards have the same sum.
fn grid(mut seconds: impl FnMut() -> u16) -> Vec<Road> {
    let mut roads = Vec::new();
    for low in 0..SIDE * SIDE {
        let right = (low % SIDE + 1 < SIDE).then_some(low + 1);
        let lower = (low / SIDE + 1 < SIDE).then_some(low + SIDE);
        for high in right.into_iter().chain(lower) {
            let seconds = seconds();
            roads.push(Road { low, high, seconds });
        }
    }
    roads
}

/// The seconds of one road after the other, from the states that follow from a seed.
fn seeded(seed: u32) -> impl FnMut() -> u16 {
    let mut state = seed;
    move || {
        state = next_state(state);
        (1 + state / 131_072) as u16
    }
}

/// "the next state, 1,664,525 × state + 1,013,904,223 modulo 4,294,967,296".
fn next_state(state: u32) -> u32 {
    let product = 1_664_525 * u64::from(state) + 1_013_904_223;
    (product % 4_294_967_296) as u32
}

/// 4,096 distinct roads, every junction joined to an earlier one.
fn random(seed: u32) -> Vec<Road> {
    let mut numbers = Numbers::new(u64::from(seed));
    let mut roads = BTreeMap::new();
    for high in 1..JUNCTIONS {
        let low = numbers.between16(0, high - 1);
        roads.insert((low, high), numbers.between16(1, MOST_SECONDS));
    }
    while roads.len() < 4_096 {
        let high = numbers.between16(1, JUNCTIONS - 1);
        let low = numbers.between16(0, high - 1);
        roads.insert((low, high), numbers.between16(1, MOST_SECONDS));
    }
    in_order(roads)
}

/// One road from each junction but 0 to a lower one.
fn joined(seed: u32, ends: impl Fn(u16) -> (u16, u16)) -> Vec<Road> {
    let mut numbers = Numbers::new(u64::from(seed));
    let road = |high| (ends(high), numbers.between16(1, MOST_SECONDS));
    in_order((1..JUNCTIONS).map(road).collect())
}

/// The chain, with a road between its ends.
fn ring(seed: u32) -> Vec<Road> {
    let mut roads = joined(seed, |high| (high - 1, high));
    let closing = Road {
        low: 0,
        high: JUNCTIONS - 1,
        seconds: Numbers::new(u64::from(!seed)).between16(1, MOST_SECONDS),
    };
    roads.insert(1, closing);
    roads
}

/// The chain with the greatest distance that a district can have; no seed changes it.
fn long_chain() -> Vec<Road> {
    let road = |high| ((high - 1, high), MOST_SECONDS);
    in_order((1..JUNCTIONS).map(road).collect())
}

/// Roads in the book's order: "pairs rise strictly".
pub fn in_order(roads: BTreeMap<(u16, u16), u16>) -> Vec<Road> {
    let road = |((low, high), seconds)| Road { low, high, seconds };
    roads.into_iter().map(road).collect()
}

/// A yard book of 1 to 256 yards, one in each equal part of the 1,024 junctions; none for another number.
pub fn yard_book(yards: u32, seed: u32) -> Option<Vec<u8>> {
    Some(yard::write(&yard_junctions(yards, seed)?))
}

/// The same yards in a version 2 book: the yard at each place has one kind, bit 0 to 7 in turn, so that each bit is
/// one yard's in eight.
pub fn kinds_yard_book(yards: u32, seed: u32) -> Option<Vec<u8>> {
    let junctions = yard_junctions(yards, seed)?.into_iter().enumerate();
    let yard = |(place, junction): (usize, u16)| Yard {
        junction,
        kinds: 1 << (place % 8),
    };
    let yards: Vec<Yard> = junctions.map(yard).collect();
    Some(yard::write_version(kinds::VERSION, &yards))
}

/// One junction in each equal part of the 1,024, for 1 to 256 parts.
fn yard_junctions(yards: u32, seed: u32) -> Option<Vec<u16>> {
    if !(1..=256).contains(&yards) {
        return None;
    }
    let mut numbers = Numbers::new(u64::from(seed));
    let cut = |i: u32| (i * u32::from(JUNCTIONS) / yards) as u16;
    let yard = |i| numbers.between16(cut(i), cut(i + 1) - 1);
    Some((0..yards).map(yard).collect())
}
