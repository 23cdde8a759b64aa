//! The sound district: its books pass, and its calls are accepted.

use crate::build::{build, KINDS_AREA_BYTES};
use crate::kinds;
use crate::refusal::WORK_WORDS;
use crate::road::{self, Road};
use crate::search::Asked;
use crate::yard::{self, Yard};
use crate::{query, tree};

/// The sound district's junctions: a chain.
pub const JUNCTIONS: u16 = 16;
/// The sound district's yards; the tree has leaves of two, two and one yards below its root.
pub const YARDS: [u16; 5] = [1, 2, 5, 6, 14];
/// Their kinds in the version 2 books: of the leaves together 3, 7 and 4, and of the root 7.
pub const KINDS: [u8; 5] = [1, 2, 5, 2, 4];
/// The versions of yard and tree books.
pub const VERSIONS: [u8; 2] = [1, kinds::VERSION];
/// The sound query's k.
pub const K: u8 = 2;
/// The sound drive search's seconds: four of the five yards are within.
pub const SECONDS: u32 = 91;
/// What a search can be asked for.
pub const ASKED: [Asked; 2] = [Asked::FirstK, Asked::Within(SECONDS)];

/// The sound district's roads.
pub fn chain() -> Vec<Road> {
    let road = |low| Road {
        low,
        high: low + 1,
        seconds: 10 + low,
    };
    (0..JUNCTIONS - 1).map(road).collect()
}

/// A road book that passes.
pub fn sound_road() -> Vec<u8> {
    road::write(JUNCTIONS, &chain())
}

/// The sound yards, as a book of this version reads.
pub fn sound_yards(version: u8) -> Vec<Yard> {
    let mut yards = yard::of_all_kinds(&YARDS);
    if kinds::size(version) > 0 {
        for (yard, kinds) in yards.iter_mut().zip(KINDS) {
            yard.kinds = kinds;
        }
    }
    yards
}

/// A yard book of this version that passes.
pub fn sound_yard(version: u8) -> Vec<u8> {
    yard::write_version(version, &sound_yards(version))
}

/// A tree book of this version that passes: build's.
pub fn sound_tree(version: u8) -> Vec<u8> {
    let mut area = vec![0; KINDS_AREA_BYTES];
    let (road, yard) = (sound_road(), sound_yard(version));
    let built = build(&road, &yard, 2, 2, &mut [0; WORK_WORDS], &mut area);
    area.truncate(built.length as usize);
    area
}

/// The sound tree of this version, for changes.
pub fn tree_value(version: u8) -> tree::Tree {
    tree::read(&sound_tree(version), JUNCTIONS).expect("the sound tree passes")
}

/// The sound tree of this version with one change.
pub fn changed_tree(version: u8, change: impl FnOnce(&mut tree::Tree)) -> Vec<u8> {
    let mut tree = tree_value(version);
    change(&mut tree);
    tree::write(&tree)
}

/// A query book that passes.
pub fn sound_query() -> Vec<u8> {
    query::write(0, K, 100, &[0, 7])
}

/// The sound road, yard, tree and query books, the second and third of this version.
pub fn sound_books(version: u8) -> [Vec<u8>; 4] {
    [
        sound_road(),
        sound_yard(version),
        sound_tree(version),
        sound_query(),
    ]
}
