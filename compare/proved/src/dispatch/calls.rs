//! The proved calls with full areas; a refusal is the error.

use compare::build::KINDS_AREA_BYTES;
use compare::refusal::WORK_WORDS;
use compare::{yard, Asked, Found};

/// The words of a result area for any list, `FINDER_WITHIN_WORDS` of the header.
pub const RESULT_WORDS: usize = 512;

/// A settled or spent search; the list has a yard and its seconds, and is empty if spent.
#[derive(Clone, Debug, PartialEq, Eq)]
pub struct Searched {
    pub found: Found,
    pub list: Vec<(u16, u32)>,
}

impl Searched {
    /// A yard's place on the list, counted from 1.
    pub fn place(&self, yard: u16) -> Option<usize> {
        let place = self.list.iter().position(|&(listed, _)| listed == yard);
        place.map(|place| place + 1)
    }
}

/// The tree that the proved build makes, after the proved check has passed it.
pub fn build(road: &[u8], yard: &[u8], landmarks: u32, leaf: u32) -> Result<Vec<u8>, u32> {
    let mut work = vec![0; WORK_WORDS];
    let mut tree = vec![0; KINDS_AREA_BYTES];
    let built = crate::build(road, yard, landmarks, leaf, &mut work, &mut tree);
    accepted(built.refusal)?;
    tree.truncate(built.length as usize);
    accepted(crate::check(road, yard, &tree, &mut work))?;
    Ok(tree)
}

/// The proved search of a road, a tree and a query book, for yards of the wanted kinds.
pub fn search(asked: Asked, wanted: u8, books: [&[u8]; 3]) -> Result<Searched, u32> {
    let mut work = vec![0; WORK_WORDS];
    let mut results = vec![0; RESULT_WORDS];
    let found = crate::ask(asked, wanted, books, &mut work, &mut results);
    accepted(found.refusal)?;
    let listed = results.chunks_exact(2).take(found.listed as usize);
    let list = listed.map(|words| (words[0] as u16, words[1])).collect();
    Ok(Searched { found, list })
}

/// The proved test of a road book alone: it is built with the one yard that every sound district has, junction 0.
pub fn road_passes(road: &[u8]) -> Result<(), u32> {
    build(road, &yard::write(&[0]), 1, 1).map(|_| ())
}

/// A refusal number as an error.
fn accepted(refusal: u32) -> Result<(), u32> {
    match refusal {
        0 => Ok(()),
        number => Err(number),
    }
}
