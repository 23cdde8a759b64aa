//! The yard book.

use crate::book::{close, open, put_u16, u16_at};
use crate::kinds;
use crate::refusal::{refuse_unless, DISAGREE, HEADER, RECORD, VALUE};
use crate::road::MOST_JUNCTIONS;

/// The most yards that a book may count.
pub const MOST_YARDS: u16 = 256;

/// A yard's junction and its kinds: "one bit per kind, not 0".
#[derive(Clone, Copy, Debug, PartialEq, Eq)]
pub struct Yard {
    pub junction: u16,
    pub kinds: u8,
}

/// A yard book that passed; its yards rise strictly.
#[derive(Clone, Debug, PartialEq, Eq)]
pub struct YardBook {
    pub version: u8,
    pub yards: Vec<Yard>,
}

impl YardBook {
    /// The yards' junctions.
    pub fn junctions(&self) -> Vec<u16> {
        self.yards.iter().map(|yard| yard.junction).collect()
    }
}

/// "Yard book: yards u16 (1 to 256), then junctions u16, below 1,024, rising strictly." "Yard book version 2 gives
/// each yard a kind byte after its junction".
///
/// The yard book's own tests in order, then the one between it and the road book.
pub fn read(book: &[u8], road_junctions: u16) -> Result<YardBook, u32> {
    let (version, fields) = open(book, kinds::VERSION)?;
    let count = header(fields)?;
    let yards = records(version, &fields[2..], count)?;
    values(&yards)?;
    junctions_of_road_book(&yards, road_junctions)?;
    Ok(YardBook { version, yards })
}

/// Test 3: "yards u16 (1 to 256)".
fn header(fields: &[u8]) -> Result<usize, u32> {
    refuse_unless(fields.len() >= 2, HEADER)?;
    let yards = u16_at(fields, 0);
    refuse_unless((1..=MOST_YARDS).contains(&yards), HEADER)?;
    Ok(usize::from(yards))
}

/// Test 4: "A record is incomplete, or bytes follow the last one."
fn records(version: u8, bytes: &[u8], count: usize) -> Result<Vec<Yard>, u32> {
    let size = 2 + kinds::size(version);
    refuse_unless(bytes.len() == size * count, RECORD)?;
    let record = |bytes: &[u8]| Yard {
        junction: u16_at(bytes, 0),
        kinds: kinds::after(version, bytes, 2),
    };
    Ok(bytes.chunks(size).map(record).collect())
}

/// Test 5: "junctions u16, below 1,024, rising strictly", "a kind byte [...] not 0".
fn values(yards: &[Yard]) -> Result<(), u32> {
    for yard in yards {
        refuse_unless(yard.junction < MOST_JUNCTIONS && yard.kinds != 0, VALUE)?;
    }
    let rise = |pair: &[Yard]| pair[0].junction < pair[1].junction;
    refuse_unless(yards.windows(2).all(rise), VALUE)
}

/// Test 8: "a yard isn't a junction of the road book".
fn junctions_of_road_book(yards: &[Yard], road_junctions: u16) -> Result<(), u32> {
    let is_junction = |yard: &Yard| yard.junction < road_junctions;
    refuse_unless(yards.iter().all(is_junction), DISAGREE)
}

/// Writes a version 1 yard book of any values.
pub fn write(junctions: &[u16]) -> Vec<u8> {
    write_version(1, &of_all_kinds(junctions))
}

/// Writes a yard book of a version, with any values; version 1 has no kinds.
pub fn write_version(version: u8, yards: &[Yard]) -> Vec<u8> {
    let mut fields = Vec::new();
    put_u16(&mut fields, yards.len() as u16);
    for yard in yards {
        put_u16(&mut fields, yard.junction);
        kinds::put(version, &mut fields, yard.kinds);
    }
    close(version, &fields)
}

/// Yards at these junctions, each of every kind.
pub fn of_all_kinds(junctions: &[u16]) -> Vec<Yard> {
    let yard = |&junction: &u16| Yard {
        junction,
        kinds: kinds::ALL,
    };
    junctions.iter().map(yard).collect()
}
