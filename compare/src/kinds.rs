//! Kinds of yard: "one bit per kind", and how books of each version hold them.

/// The version of a yard or tree book that has kind bytes; it is the latest of both.
pub const VERSION: u8 = 2;
/// Every kind: "Version 1 books are read with kind 255 throughout", "The list program wants 255."
pub const ALL: u8 = 255;

/// How many bytes a book of this version takes to say a yard's or a region's kinds.
pub fn size(version: u8) -> usize {
    match version {
        1 => 0,
        _ => 1,
    }
}

/// "Version 1 books are read with kind 255 throughout": the kind byte that follows some fields of this size.
pub fn after(version: u8, record: &[u8], fields: usize) -> u8 {
    match version {
        1 => ALL,
        _ => record[fields],
    }
}

/// Writes a kind byte, as far as a book of this version has one.
pub fn put(version: u8, bytes: &mut Vec<u8>, kinds: u8) {
    bytes.extend_from_slice(&[kinds][..size(version)]);
}

/// Whether a kind byte "shares a bit" with the wanted ones.
pub fn share(kinds: u8, wanted: u8) -> bool {
    kinds & wanted != 0
}

/// "a bit is set exactly if some yard in that region has it": the kinds that some yards have together.
pub fn together(kinds: impl Iterator<Item = u8>) -> u8 {
    kinds.fold(0, |all, kinds| all | kinds)
}
