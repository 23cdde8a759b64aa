//! A refusal in words: the number, the book, the record and the rule.

use compare::book::{u16_at, u32_at};
use compare::kinds;
use compare::refusal::{DISAGREE, HEADER, LENGTH, RECORD, UNREACHED, VALUE, VERSION};
use compare::road::{self, MOST_JUNCTIONS, MOST_ROADS};
use compare::yard::{Yard, MOST_YARDS};

use super::district::counted;

/// Where the fields of every book begin: after the count and the version.
const FIELDS: usize = 5;

/// The paper's rules by number, for a refusal that has no record to tell.
const RULES: [&str; 13] = [
    "fewer than five bytes, or the length isn't the count of bytes after it",
    "the version isn't 1, nor, in a yard or tree book, 2",
    "the header is incomplete, or a count is outside its limits",
    "a record is incomplete, or bytes follow the last one",
    "a record's value is outside its range or order",
    "some junction can't be reached from junction 0",
    "the tree's shape rules don't hold",
    "junction counts or yards disagree between books, or a yard isn't a junction of the road book",
    "a stored distance, least, greatest or kind byte isn't the true one",
    "crews are none, more than 16, or at no junction of the road book",
    "k, the aggregate code, m or the leaf limit is outside its range",
    "a lent area is too short",
    "no kind of yard is wanted",
];

/// How it is told that some junctions, at least one, can't be reached.
pub type CutOff<'a> = &'a dyn Fn(&[u16]) -> String;

/// A road book's refusal.
pub fn of_road(number: u32, book: &[u8], cut_off: CutOff) -> String {
    let part = match number {
        LENGTH | VERSION => opening(number, book, "1"),
        HEADER => road_header(book),
        RECORD => records(book, 4, u16_at(book, FIELDS + 2), 6, "road"),
        VALUE => road_value(book),
        UNREACHED => unreached(book, cut_off),
        _ => None,
    };
    worded(number, "road book", part)
}

/// A yard book's refusal beside a road book of so many junctions.
pub fn of_yard(number: u32, book: &[u8], junctions: u16) -> String {
    let part = match number {
        LENGTH | VERSION => opening(number, book, "1 or 2"),
        HEADER => yard_header(book),
        RECORD => records(book, 2, u16_at(book, FIELDS), yard_size(book), "yard"),
        VALUE => yard_value(book),
        DISAGREE => yard_elsewhere(book, junctions),
        _ => None,
    };
    worded(number, "yard book", part)
}

/// A refusal of which only the rule can be told.
pub fn by_rule(number: u32, book: &str) -> String {
    worded(number, book, None)
}

/// The number and the book, with the record's fault or else the rule.
fn worded(number: u32, book: &str, part: Option<String>) -> String {
    let rule = RULES.get(number as usize - 1).copied().unwrap_or("unknown");
    match part {
        Some(part) => format!("refused {number}: {book}{part}"),
        None => format!("refused {number}: {book}: {rule}"),
    }
}

/// Tests 1 and 2, of a book that has these versions.
fn opening(number: u32, book: &[u8], versions: &str) -> Option<String> {
    let length = book.len();
    Some(match number {
        LENGTH if length < FIELDS => {
            format!(": {}, expected at least {FIELDS}", counted(length, "byte"))
        }
        LENGTH => format!(
            ": its first four bytes count {} bytes after them, not {}",
            u32_at(book, 0),
            length - 4
        ),
        _ => format!(": the version is {}, expected {versions}", book[4]),
    })
}

/// Test 3 of a road book.
fn road_header(book: &[u8]) -> Option<String> {
    if book.len() < FIELDS + 4 {
        return Some(short_header(book, 4));
    }
    let (junctions, roads) = (u16_at(book, FIELDS), u16_at(book, FIELDS + 2));
    Some(match (1..=MOST_JUNCTIONS).contains(&junctions) {
        false => format!(", header: {junctions} junctions, expected 1 to {MOST_JUNCTIONS}"),
        true => format!(", header: {roads} roads, expected 0 to {MOST_ROADS}"),
    })
}

/// Test 3 of a yard book.
fn yard_header(book: &[u8]) -> Option<String> {
    if book.len() < FIELDS + 2 {
        return Some(short_header(book, 2));
    }
    let yards = u16_at(book, FIELDS);
    Some(format!(
        ", header: {yards} yards, expected 1 to {MOST_YARDS}"
    ))
}

/// A header that is incomplete.
fn short_header(book: &[u8], size: usize) -> String {
    format!(
        ", header: {} bytes after the version, expected {size}",
        book.len() - FIELDS
    )
}

/// Test 4: the bytes after the header, beside those that so many records take.
fn records(book: &[u8], header: usize, count: u16, size: usize, noun: &str) -> Option<String> {
    let bytes = book.len() - FIELDS - header;
    let wanted = size * usize::from(count);
    Some(format!(
        ": {bytes} bytes after the header, expected {wanted} for {count} {noun}s of {size} bytes"
    ))
}

/// Test 5 of a road book: the first road that breaks a rule.
fn road_value(book: &[u8]) -> Option<String> {
    let junctions = u16_at(book, FIELDS);
    let roads: Vec<[u16; 3]> = book[FIELDS + 4..]
        .chunks_exact(6)
        .map(|record| [0, 2, 4].map(|place| u16_at(record, place)))
        .collect();
    let mut before = None;
    for (place, &[low, high, seconds]) in roads.iter().enumerate() {
        let rule = road_rule([low, high, seconds], before, junctions);
        if let Some(rule) = rule {
            return Some(format!(
                ", road {} ({low} {high} {seconds}): {rule}",
                place + 1
            ));
        }
        before = Some((low, high));
    }
    None
}

/// The rule that a road breaks, after the road before it.
fn road_rule(
    [low, high, seconds]: [u16; 3],
    before: Option<(u16, u16)>,
    junctions: u16,
) -> Option<String> {
    if low >= high {
        return Some("expected the low end below the high end".to_string());
    }
    if high >= junctions {
        return Some(format!(
            "expected ends below the junction count, {junctions}"
        ));
    }
    if seconds == 0 {
        return Some("expected seconds from 1 to 65535".to_string());
    }
    let falls = before.is_some_and(|before| before >= (low, high));
    falls.then(|| "expected pairs of ends to rise strictly from road to road".to_string())
}

/// Test 5 of a yard book: the first yard that breaks a rule.
fn yard_value(book: &[u8]) -> Option<String> {
    let mut before = None;
    for (place, Yard { junction, kinds }) in yards(book).enumerate() {
        let rule = match before {
            _ if junction >= MOST_JUNCTIONS => "expected a junction below 1024",
            Some(before) if junction <= before => "expected junctions to rise strictly",
            _ if kinds == 0 => "expected kinds from 1 to 255, not 0",
            _ => {
                before = Some(junction);
                continue;
            }
        };
        return Some(format!(
            ", yard {} (junction {junction}): {rule}",
            place + 1
        ));
    }
    None
}

/// Test 8 of a yard book: the first yard that isn't a junction.
fn yard_elsewhere(book: &[u8], junctions: u16) -> Option<String> {
    let (place, yard) = yards(book)
        .map(|yard| yard.junction)
        .enumerate()
        .find(|&(_, yard)| yard >= junctions)?;
    let rule = format!(
        "the road book has no such junction, its junctions are 0 to {}",
        junctions - 1
    );
    Some(format!(", yard {} (junction {yard}): {rule}", place + 1))
}

/// The bytes of a yard's record, by the book's version.
fn yard_size(book: &[u8]) -> usize {
    2 + kinds::size(book[4])
}

/// A yard book's yards.
fn yards(book: &[u8]) -> impl Iterator<Item = Yard> + '_ {
    let version = book[4];
    let yard = move |record: &[u8]| Yard {
        junction: u16_at(record, 0),
        kinds: kinds::after(version, record, 2),
    };
    book[FIELDS + 2..].chunks_exact(yard_size(book)).map(yard)
}

/// Test 6: the junctions that can't be reached.
fn unreached(book: &[u8], cut_off: CutOff) -> Option<String> {
    let unreached = road::read_layout(book).ok()?.unreached();
    (!unreached.is_empty()).then(|| format!(": {}", cut_off(&unreached)))
}
