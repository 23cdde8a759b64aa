//! Books with bytes cut off, added or changed.

/// A book without its last bytes, its count right.
pub fn cut(book: &[u8], bytes: usize) -> Vec<u8> {
    recount(&book[..book.len() - bytes])
}

/// A book with bytes after it, its count right.
pub fn longer(book: &[u8], bytes: &[u8]) -> Vec<u8> {
    recount(&[book, bytes].concat())
}

/// The same bytes with the count that they need.
fn recount(book: &[u8]) -> Vec<u8> {
    with_count(book, book.len() as u32 - 4)
}

/// The same bytes with another count.
pub fn with_count(book: &[u8], count: u32) -> Vec<u8> {
    [&count.to_be_bytes(), &book[4..]].concat()
}

/// The same bytes with another version.
pub fn with_version(book: &[u8], version: u8) -> Vec<u8> {
    with_byte(book, 4, version)
}

/// The same bytes but one.
pub fn with_byte(book: &[u8], place: usize, value: u8) -> Vec<u8> {
    let mut book = book.to_vec();
    book[place] = value;
    book
}

/// The same bytes but one u16.
pub fn with_u16(book: &[u8], place: usize, value: u16) -> Vec<u8> {
    let mut book = book.to_vec();
    book[place..place + 2].copy_from_slice(&value.to_be_bytes());
    book
}
