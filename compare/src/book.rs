//! What every book shares: its opening, and big-endian numbers.

use crate::refusal::{refuse_unless, LENGTH, VERSION};

/// "Each book is a 4-byte count of the bytes after it, a version byte (1), then fields."
///
/// Tests 1 and 2, for a book that has versions 1 to the latest; the answer is the version and the fields.
pub fn open(book: &[u8], latest: u8) -> Result<(u8, &[u8]), u32> {
    let counted = book.len() >= 5 && book.len() - 4 == u32_at(book, 0) as usize;
    refuse_unless(counted, LENGTH)?;
    refuse_unless((1..=latest).contains(&book[4]), VERSION)?;
    Ok((book[4], &book[5..]))
}

/// "Each book is a 4-byte count of the bytes after it, a version byte (1), then fields."
pub fn close(version: u8, fields: &[u8]) -> Vec<u8> {
    let mut book = Vec::with_capacity(fields.len() + 5);
    put_u32(&mut book, fields.len() as u32 + 1);
    book.push(version);
    book.extend_from_slice(fields);
    book
}

/// "Everything is unsigned and big-endian": the u16 at a place.
pub fn u16_at(bytes: &[u8], place: usize) -> u16 {
    u16::from_be_bytes([bytes[place], bytes[place + 1]])
}

/// "Everything is unsigned and big-endian": the u32 at a place.
pub fn u32_at(bytes: &[u8], place: usize) -> u32 {
    let high = u32::from(u16_at(bytes, place));
    let low = u32::from(u16_at(bytes, place + 2));
    high * 65_536 + low
}

/// "Everything is unsigned and big-endian": writes a u16.
pub fn put_u16(bytes: &mut Vec<u8>, value: u16) {
    bytes.extend_from_slice(&value.to_be_bytes());
}

/// "Everything is unsigned and big-endian": writes a u32.
pub fn put_u32(bytes: &mut Vec<u8>, value: u32) {
    bytes.extend_from_slice(&value.to_be_bytes());
}
