//! Random damages, and random books.

use super::{cut, longer, sound_books, with_count, VERSIONS};
use crate::book;
use crate::generate::Numbers;

/// The sound books of some version, each damaged a few times or not at all.
pub fn damaged_books(numbers: &mut Numbers) -> [Vec<u8>; 4] {
    let version = VERSIONS[usize::from(numbers.once_in(2))];
    sound_books(version).map(|mut book| {
        while numbers.once_in(3) && !book.is_empty() {
            book = random_damage(numbers, &book);
        }
        book
    })
}

/// A book of a version up to the latest, with a true count and random bytes, half of them below 3.
pub fn random_book(numbers: &mut Numbers, latest: u8) -> Vec<u8> {
    let version = numbers.between(1, u64::from(latest)) as u8;
    let length = numbers.between(0, 60);
    let byte = |any: u64| match any & 256 {
        0 => any as u8 % 3,
        _ => any as u8,
    };
    let bytes: Vec<u8> = (0..length).map(|_| byte(numbers.any())).collect();
    book::close(version, &bytes)
}

/// A book with some random damage: cut, longer, another count, or other bytes.
pub fn random_damage(numbers: &mut Numbers, book: &[u8]) -> Vec<u8> {
    let length = book.len() as u64;
    let bytes = numbers.between(1, length.min(12)) as usize;
    match numbers.between(0, 5) {
        0 => book[..book.len() - bytes].to_vec(),
        1 if book.len() - bytes >= 4 => cut(book, bytes),
        2 if book.len() >= 4 => longer(book, &vec![0; bytes]),
        3 if book.len() >= 4 => with_count(book, numbers.any() as u32),
        _ => {
            let mut book = book.to_vec();
            for _ in 0..numbers.between(1, 3) {
                let place = numbers.between(0, length - 1) as usize;
                book[place] = numbers.any() as u8;
            }
            book
        }
    }
}
