//! The list program and the within program.

use std::fmt::Write;

use crate::book::u32_at;
use crate::kinds;
use crate::refusal::WORK_WORDS;
use crate::search::{ask, Asked, Found};

/// The most bytes that a program's input may have: 1 MiB.
pub const MOST_INPUT: u64 = 1_048_576;

/// "The list program reads road, tree and query books from standard input": what it prints for these bytes.
pub fn list(input: &[u8]) -> String {
    asked(Asked::FirstK, input, &mut [0; 128])
}

/// Decimal seconds and a line end, then the books as list reads them; anything else before the line end that is
/// not a decimal number below 4,294,967,296 prints `refused 1`.
pub fn within(input: &[u8]) -> String {
    let Some(end) = input.iter().position(|&byte| byte == b'\n') else {
        return String::from("refused 1\n");
    };
    match seconds(&input[..end]) {
        Some(seconds) => asked(Asked::Within(seconds), &input[end + 1..], &mut [0; 512]),
        None => String::from("refused 1\n"),
    }
}

/// A number of digits alone, if there is one of 32 bits.
fn seconds(line: &[u8]) -> Option<u32> {
    let digits = !line.is_empty() && line.iter().all(u8::is_ascii_digit);
    digits.then(|| std::str::from_utf8(line).ok()?.parse().ok())?
}

/// What is printed for three books in turn: "The list program wants 255."
fn asked(asked: Asked, books: &[u8], results: &mut [u32]) -> String {
    let (road, rest) = first_book(books);
    let (tree, query) = first_book(rest);
    let books = [road, tree, query];
    let found = ask(asked, kinds::ALL, books, &mut [0; WORK_WORDS], results);
    printed(&found, results)
}

/// "The first two each take four bytes and as many more as those count, or what is left if that is less".
pub fn first_book(input: &[u8]) -> (&[u8], &[u8]) {
    if input.len() < 4 {
        return (input, &[]);
    }
    let wanted = 4 + u64::from(u32_at(input, 0));
    let length = wanted.min(input.len() as u64) as usize;
    input.split_at(length)
}

/// "yard and aggregate seconds; counts last"; "Spent prints `spent measured 1 taken 3`"; "a refusal prints
/// `refused` and its number".
fn printed(found: &Found, results: &[u32]) -> String {
    if found.refusal != 0 {
        return format!("refused {}\n", found.refusal);
    }
    let counts = format!("measured {} taken {}\n", found.measured, found.taken);
    if found.settled == 0 {
        return format!("spent {counts}");
    }
    format!("yard seconds\n{}{counts}", rows(found, results))
}

/// One line for each listed yard: its number and its distance.
pub fn rows(found: &Found, results: &[u32]) -> String {
    let mut rows = String::new();
    for words in results.chunks_exact(2).take(found.listed as usize) {
        let _ = writeln!(rows, "{} {}", words[0], words[1]);
    }
    rows
}
