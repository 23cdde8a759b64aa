//! What `dispatch text` prints: books as a text that gives the same books.

use std::fmt::Write;

use compare::yard::{self, YardBook};
use compare::{kinds, road};

use super::calls;
use super::district::counted;
use super::fault::Fault;
use super::output::Output;
use super::refusal;

/// The text of a road book, and of a yard book beside it.
pub fn text(road_book: &[u8], yard_book: Option<&[u8]>) -> Result<Output, Fault> {
    let cut_off =
        |junctions: &[u16]| format!("junction {} can't be reached from junction 0", junctions[0]);
    calls::road_passes(road_book)
        .map_err(|n| Fault::bad_input(refusal::of_road(n, road_book, &cut_off)))?;
    let road = road::read(road_book).map_err(differs)?;
    let mut text = format!("junctions {}\n", road.junctions);
    for road in &road.roads {
        let _ = writeln!(text, "road {} {} {}", road.low, road.high, road.seconds);
    }
    let mut heading = format!("# {}", counted(road.roads.len(), "road"));
    if let Some(book) = yard_book {
        let bad = |n| Fault::bad_input(refusal::of_yard(n, book, road.junctions));
        calls::build(road_book, book, 1, 256).map_err(bad)?;
        let yards = yard::read(book, road.junctions).map_err(differs)?;
        heading.push_str(&format!(", {}", counted(yards.yards.len(), "yard")));
        text.push_str(&yard_lines(&yards));
    }
    Ok(Output::text(format!("{heading}\n{text}")))
}

/// A name for each bit of a byte of kinds, as docs/BOOKS.md counts them.
const KINDS: [&str; 8] = ["k1", "k2", "k3", "k4", "k5", "k6", "k7", "k8"];

/// A line for each yard; those of a version 2 book have their kinds, but for a yard of every kind.
fn yard_lines(book: &YardBook) -> String {
    let mut lines = String::new();
    if kinds::size(book.version) > 0 {
        let _ = writeln!(lines, "kind {}", KINDS.join(" "));
    }
    for yard in &book.yards {
        let _ = write!(lines, "yard {}", yard.junction);
        if yard.kinds != kinds::ALL {
            let has = |bit: &usize| yard.kinds >> bit & 1 == 1;
            let names: Vec<&str> = (0..8).filter(has).map(|bit| KINDS[bit]).collect();
            let _ = write!(lines, " kinds {}", names.join(" "));
        }
        lines.push('\n');
    }
    lines
}

/// The plain reader refuses what the proved call passed.
fn differs(number: u32) -> Fault {
    Fault::failed(refusal::by_rule(
        number,
        "the plain reader, of a book that the proved call passed",
    ))
}
