//! The tree book and its shape. A junction's number is a u16 here, a region's a usize.

mod shape;
mod write;

use crate::book::{open, u16_at, u32_at};
use crate::kinds;
use crate::refusal::{refuse_unless, DISAGREE, HEADER, RECORD, VALUE};
use crate::road::MOST_JUNCTIONS;
use crate::yard::{Yard, MOST_YARDS};
pub use write::write;

/// The most regions that a book may count.
pub const MOST_REGIONS: u16 = 511;
/// The most landmarks that a region may have.
pub const MOST_LANDMARKS: u8 = 4;
/// "Stored distances are at most 67,042,305, which is 1,023 × 65,535."
pub const MOST_DISTANCE: u32 = 67_042_305;
/// "there are at most 8 levels, root included".
pub const MOST_LEVELS: u32 = 8;

/// "Tree book: junctions u16, regions u16, yards u16, landmarks per region m u8; then regions in preorder."
#[derive(Clone, Debug, PartialEq, Eq)]
pub struct Tree {
    pub version: u8,
    pub junctions: u16,
    pub yards: u16,
    pub m: u8,
    pub regions: Vec<Region>,
}

/// "A region: first junction u16, junction after the last u16, children u8, yards u16; then per landmark [...]."
/// Version 2 puts "a region's byte after its yard count".
#[derive(Clone, Debug, PartialEq, Eq)]
pub struct Region {
    pub first: u16,
    pub after: u16,
    pub children: u8,
    pub yards: u16,
    pub kinds: u8,
    pub landmarks: Vec<Landmark>,
}

/// "per landmark its junction u16 and" what is stored for it.
#[derive(Clone, Debug, PartialEq, Eq)]
pub struct Landmark {
    pub junction: u16,
    pub stored: Stored,
}

/// "in a leaf, one pair (distance u32, yard u16) per yard; in an inner region, least and greatest distance".
#[derive(Clone, Debug, PartialEq, Eq)]
pub enum Stored {
    List(Vec<Entry>),
    Span { least: u32, greatest: u32 },
}

/// A list's entry; version 2 "puts a yard's kind byte after each of its list entries".
#[derive(Clone, Copy, Debug, PartialEq, Eq)]
pub struct Entry {
    pub distance: u32,
    pub yard: u16,
    pub kinds: u8,
}

impl Entry {
    /// "rising strictly by distance and then yard": what entries rise by.
    pub fn pair(&self) -> (u32, u16) {
        (self.distance, self.yard)
    }
}

impl Stored {
    /// A list of these distances and yards, each of every kind.
    pub fn list(pairs: &[(u32, u16)]) -> Self {
        let entry = |&(distance, yard): &(u32, u16)| Entry {
            distance,
            yard,
            kinds: kinds::ALL,
        };
        Stored::List(pairs.iter().map(entry).collect())
    }
}

impl Landmark {
    /// "least distance A and greatest B from landmark l (in a leaf, its list's first and last)".
    pub fn least_and_greatest(&self) -> (u32, u32) {
        match &self.stored {
            Stored::List(list) => (list[0].distance, list[list.len() - 1].distance),
            Stored::Span { least, greatest } => (*least, *greatest),
        }
    }

    /// A leaf landmark's list; an inner region's landmark has none.
    pub fn list(&self) -> &[Entry] {
        match &self.stored {
            Stored::List(list) => list,
            Stored::Span { .. } => &[],
        }
    }
}

impl Region {
    /// "children u8 (0 for a leaf, else 2 to 4)".
    pub fn is_leaf(&self) -> bool {
        self.children == 0
    }

    /// A leaf's yards with the kinds that its first list gives them; an inner region's record names none.
    pub fn first_yards(&self) -> impl Iterator<Item = Yard> + '_ {
        let yard = |entry: &Entry| Yard {
            junction: entry.yard,
            kinds: entry.kinds,
        };
        self.landmarks[0].list().iter().map(yard)
    }

    /// "a yard is wanted if its byte in its leaf's first list shares a bit": a leaf's wanted yards.
    pub fn wanted_yards(&self, wanted: u8) -> Vec<u16> {
        let yards = self.first_yards();
        let wanted = yards.filter(|yard| kinds::share(yard.kinds, wanted));
        wanted.map(|yard| yard.junction).collect()
    }
}

impl Tree {
    /// The region number after a region's last descendant, in preorder.
    pub fn after_region(&self, number: usize) -> usize {
        let children = self.regions[number].children;
        (0..children).fold(number + 1, |next, _| self.after_region(next))
    }

    /// The numbers of a region's children.
    pub fn children(&self, number: usize) -> Vec<usize> {
        let mut next = number + 1;
        let mut children = Vec::new();
        for _ in 0..self.regions[number].children {
            children.push(next);
            next = self.after_region(next);
        }
        children
    }

    /// The yards of a region's leaves, rising.
    pub fn yards_of(&self, number: usize) -> Vec<u16> {
        let yards = self.yards_with_kinds(number).into_iter();
        yards.map(|yard| yard.junction).collect()
    }

    /// The yards of a region's leaves, rising, with the kinds that their leaves' first lists give them.
    pub fn yards_with_kinds(&self, number: usize) -> Vec<Yard> {
        let below = &self.regions[number..self.after_region(number)];
        let mut yards: Vec<Yard> = below.iter().flat_map(Region::first_yards).collect();
        yards.sort_by_key(|yard| yard.junction);
        yards
    }
}

/// The tree book's own tests in order, then "Junction counts disagree between books".
pub fn read(book: &[u8], road_junctions: u16) -> Result<Tree, u32> {
    let tree = read_alone(book)?;
    refuse_unless(tree.junctions == road_junctions, DISAGREE)?;
    Ok(tree)
}

/// The tree book's own tests in order.
pub fn read_alone(book: &[u8]) -> Result<Tree, u32> {
    let (version, fields) = open(book, kinds::VERSION)?;
    let tree = header(version, fields)?;
    let count = usize::from(u16_at(fields, 2));
    let tree = records(&fields[7..], count, tree)?;
    tree.regions.iter().try_for_each(|r| values(r, &tree))?;
    shape::shape(&tree)?;
    Ok(tree)
}

/// Test 3: "junctions u16 (1 to 1,024), regions u16 (1 to 511), yards u16 (1 to 256), m u8 (1 to 4)".
///
/// The answer has no regions yet.
fn header(version: u8, fields: &[u8]) -> Result<Tree, u32> {
    refuse_unless(fields.len() >= 7, HEADER)?;
    let tree = Tree {
        version,
        junctions: u16_at(fields, 0),
        yards: u16_at(fields, 4),
        m: fields[6],
        regions: Vec::new(),
    };
    let regions = u16_at(fields, 2);
    refuse_unless((1..=MOST_JUNCTIONS).contains(&tree.junctions), HEADER)?;
    refuse_unless((1..=MOST_REGIONS).contains(&regions), HEADER)?;
    refuse_unless((1..=MOST_YARDS).contains(&tree.yards), HEADER)?;
    refuse_unless((1..=MOST_LANDMARKS).contains(&tree.m), HEADER)?;
    Ok(tree)
}

/// Test 4: "A record is incomplete, or bytes follow the last one."
fn records(bytes: &[u8], count: usize, mut tree: Tree) -> Result<Tree, u32> {
    let mut rest = bytes;
    for _ in 0..count {
        let (region, after) = record(rest, &tree)?;
        tree.regions.push(region);
        rest = after;
    }
    refuse_unless(rest.is_empty(), RECORD)?;
    Ok(tree)
}

/// "Any children count but 0 has an inner region's layout": one region's record and the bytes after it.
fn record<'a>(bytes: &'a [u8], tree: &Tree) -> Result<(Region, &'a [u8]), u32> {
    let (start, mut rest) = part(bytes, 7 + kinds::size(tree.version))?;
    let mut region = Region {
        first: u16_at(start, 0),
        after: u16_at(start, 2),
        children: start[4],
        yards: u16_at(start, 5),
        kinds: kinds::after(tree.version, start, 7),
        landmarks: Vec::new(),
    };
    for _ in 0..tree.m {
        let (landmark, after) = landmark(rest, tree.version, &region)?;
        region.landmarks.push(landmark);
        rest = after;
    }
    Ok((region, rest))
}

/// "per landmark its junction u16 and" what is stored for it, and the bytes after it.
fn landmark<'a>(
    bytes: &'a [u8],
    version: u8,
    region: &Region,
) -> Result<(Landmark, &'a [u8]), u32> {
    let (junction, rest) = part(bytes, 2)?;
    let size = match region.is_leaf() {
        true => entry_size(version) * usize::from(region.yards),
        false => 8,
    };
    let (stored, after) = part(rest, size)?;
    let landmark = Landmark {
        junction: u16_at(junction, 0),
        stored: match region.is_leaf() {
            true => read_list(version, stored),
            false => read_span(stored),
        },
    };
    Ok((landmark, after))
}

/// "one pair (distance u32, yard u16) per yard", in version 2 with a kind byte after it.
fn entry_size(version: u8) -> usize {
    6 + kinds::size(version)
}

/// "A record is incomplete": the first bytes, as many as asked, and the rest.
fn part(bytes: &[u8], size: usize) -> Result<(&[u8], &[u8]), u32> {
    refuse_unless(bytes.len() >= size, RECORD)?;
    Ok(bytes.split_at(size))
}

/// "A leaf's list is read as a part of the book that starts where its record puts it."
fn read_list(version: u8, bytes: &[u8]) -> Stored {
    let entry = |bytes: &[u8]| Entry {
        distance: u32_at(bytes, 0),
        yard: u16_at(bytes, 4),
        kinds: kinds::after(version, bytes, 6),
    };
    Stored::List(bytes.chunks(entry_size(version)).map(entry).collect())
}

/// "in an inner region, least and greatest distance to its yards, u32 each".
fn read_span(bytes: &[u8]) -> Stored {
    Stored::Span {
        least: u32_at(bytes, 0),
        greatest: u32_at(bytes, 4),
    }
}

/// Test 5: "A range isn't empty and ends at or below the junction count. Landmarks lie in their range". "A kind byte
/// of 0 in a tree is refused by 5."
fn values(region: &Region, tree: &Tree) -> Result<(), u32> {
    let range = region.first..region.after;
    refuse_unless(!range.is_empty() && region.after <= tree.junctions, VALUE)?;
    refuse_unless(matches!(region.children, 0 | 2..=4), VALUE)?;
    refuse_unless(region.yards >= 1 && region.kinds != 0, VALUE)?;
    for landmark in &region.landmarks {
        refuse_unless(range.contains(&landmark.junction), VALUE)?;
        refuse_unless(stored_values(&landmark.stored), VALUE)?;
    }
    Ok(())
}

/// Test 5: pairs "rising strictly by distance and then yard", "Stored distances are at most 67,042,305",
/// "least not above greatest", "A kind byte of 0 in a tree is refused by 5."
fn stored_values(stored: &Stored) -> bool {
    match stored {
        Stored::List(list) => {
            let rise = |two: &[Entry]| two[0].pair() < two[1].pair();
            let sound = |entry: &Entry| entry.distance <= MOST_DISTANCE && entry.kinds != 0;
            list.windows(2).all(rise) && list.iter().all(sound)
        }
        Stored::Span { least, greatest } => least <= greatest,
    }
}
