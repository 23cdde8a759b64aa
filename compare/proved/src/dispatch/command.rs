//! The commands and their arguments.

use std::ffi::OsString;
use std::fs::File;
use std::io::{self, Read};
use std::path::Path;

use super::district::District;
use super::fault::Fault;
use super::lines::{shown, BadLine};
use super::output::Output;
use super::parse::parse;
use super::{bookfiles, draw, list, text, why};

/// How the program is called.
pub const USAGE: &str = "\
usage: dispatch list FILE           the yards with the least drive or within one, each crew's seconds beside them
       dispatch why FILE [YARD]     each step of the search, and why yards were left out
       dispatch draw FILE           the district for Graphviz
       dispatch books FILE FOLDER   writes road.book, yard.book, tree.book and query.book
       dispatch text ROAD [YARD]    books as text
FILE is a district, - is standard input; DISTRICT.md, in docs or share/doc/finder, says how it is written. ROAD and
YARD are books.
Status 0: done; 1: a write failed or the finders differ; 2: the input is not as expected; 3: the limit was spent.
";

/// The commands.
const COMMANDS: [&str; 8] = [
    "list", "why", "draw", "books", "text", "help", "--help", "-h",
];

/// No district and no book is longer.
const MOST_BYTES: u64 = 4 * 1_024 * 1_024;

/// What a command writes.
pub fn answer(arguments: &[OsString]) -> Result<Output, Fault> {
    let (command, rest) = arguments.split_first().ok_or_else(|| usage("no command"))?;
    match (command.to_str(), rest) {
        (Some("list"), [file]) => about(file, list::list),
        (Some("why"), [file]) => about(file, |district| why::why(district, None)),
        (Some("why"), [file, yard]) => about(file, |district| {
            why::why(district, Some(&yard.to_string_lossy()))
        }),
        (Some("draw"), [file]) => about(file, draw::draw),
        (Some("books"), [file, folder]) => about(file, |district| {
            bookfiles::books(district, Path::new(folder))
        }),
        (Some("text"), [road]) => text::text(&bytes(road)?, None).map_err(|fault| of(road, fault)),
        (Some("text"), [road, yard]) => {
            let (road_book, yard_book) = (bytes(road)?, bytes(yard)?);
            text::text(&road_book, None).map_err(|fault| of(road, fault))?;
            text::text(&road_book, Some(&yard_book)).map_err(|fault| of(yard, fault))
        }
        (Some("help" | "--help" | "-h"), []) => Ok(Output::text(USAGE.to_string())),
        (Some(known), _) if COMMANDS.contains(&known) => Err(usage(&format!(
            "{} does not go with these arguments",
            shown(known)
        ))),
        _ => Err(usage(&format!(
            "{} is no command",
            shown(&command.to_string_lossy())
        ))),
    }
}

/// What a command makes of a file's district; faults name the file, and the line if one is at fault.
fn about(
    file: &OsString,
    make: impl FnOnce(&District) -> Result<Output, Fault>,
) -> Result<Output, Fault> {
    let line = |number: usize, message: &str| format!("{}:{number}: {message}", file.display());
    let district =
        parse(&bytes(file)?).map_err(|bad| Fault::bad_input(line(bad.line, &bad.message)))?;
    let warned = |bad: &BadLine| line(bad.line, &format!("warning: {}", bad.message));
    let warnings: Vec<String> = district.warnings.iter().map(warned).collect();
    match make(&district) {
        Ok(output) => Ok(Output { warnings, ..output }),
        Err(fault) => Err(of(file, Fault { warnings, ..fault })),
    }
}

/// The same fault, of this file.
fn of(file: &OsString, fault: Fault) -> Fault {
    let message = format!("{}: {}", file.display(), fault.message);
    Fault { message, ..fault }
}

/// A whole file, or standard input.
fn bytes(name: &OsString) -> Result<Vec<u8>, Fault> {
    let read = match name.to_str() {
        Some("-") => all(io::stdin()),
        _ => File::open(name).and_then(all),
    };
    let bytes = read.map_err(|error| Fault::bad_input(format!("{}: {error}", name.display())))?;
    match bytes.len() as u64 > MOST_BYTES {
        true => Err(Fault::bad_input(format!(
            "{}: expected at most {MOST_BYTES} bytes",
            name.display()
        ))),
        false => Ok(bytes),
    }
}

/// All bytes, or more than any file may have.
fn all(input: impl Read) -> io::Result<Vec<u8>> {
    let mut bytes = Vec::new();
    input.take(MOST_BYTES + 1).read_to_end(&mut bytes)?;
    Ok(bytes)
}

/// Arguments that are not as the usage says.
fn usage(message: &str) -> Fault {
    Fault::bad_input(format!("{message}\n{}", USAGE.trim_end()))
}
