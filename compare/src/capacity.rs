//! What the command `keys` prints: how many yards a search for k yards measures, and every wanted yard's key.

use std::fmt::Write;

use crate::brute;
use crate::search::keys::{greatest_worth, keys, worth_measuring, Keyed};
use crate::search::{tested_books, Asked, Search};

/// `REFUSAL WANTED LISTED LAST MEASURED`, where a refusal is followed by four zeros, and then `YARD KEY` for each
/// wanted yard in order of the keys.
pub fn capacity(wanted: u8, books: [&[u8]; 3]) -> String {
    match tested_books(Asked::FirstK, wanted, books) {
        Ok(search) => estimate(&search),
        Err(refusal) => format!("{refusal} 0 0 0 0\n"),
    }
}

/// The wanted yards, those that the settled search lists, the last one's distance and those worth measuring, by true
/// distances and keys and no run; then the keys.
fn estimate(search: &Search) -> String {
    let Search {
        road, tree, query, ..
    } = search;
    let list = brute::list(search.asked, search.wanted, road, tree, query);
    let last = list.last().map_or(0, |listed| listed.0);
    let keys = keys(search);
    let measured = worth_measuring(&keys, greatest_worth(search, &list)).len();
    let (wanted, listed) = (keys.len(), list.len());
    format!("0 {wanted} {listed} {last} {measured}\n") + &rows(&keys)
}

/// One line for each wanted yard: its number and its key.
fn rows(keys: &[Keyed]) -> String {
    let mut rows = String::new();
    for Keyed { key, yard } in keys {
        let _ = writeln!(rows, "{yard} {key}");
    }
    rows
}
