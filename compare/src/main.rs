//! The command `reference`: what the finder answers, for comparison and measurement.
#![forbid(unsafe_code)]

use std::ffi::OsString;
use std::fs;
use std::io::{self, Read, Write};
use std::process::ExitCode;
use std::str::FromStr;

use compare::capacity::capacity;
use compare::eccentricity::eccentricity;
use compare::generate::standard;
use compare::list::{list, rows, MOST_INPUT};
use compare::outline::outline;
use compare::{ask, build, check, Asked};

const USAGE: &str = "usage: reference list < BYTES
       reference check ROAD YARD TREE WORK
       reference build ROAD YARD M LIMIT WORK AREA OUT
       reference search ROAD TREE QUERY WANTED WORK RESULTS
       reference within ROAD TREE QUERY WANTED SECONDS WORK RESULTS
       reference keys ROAD TREE QUERY WANTED
       reference outline < TREE
       reference roads ROAD|-
       reference generate grid|random|star|chain|ring|longchain|even SEED > ROAD
       reference generate yards|kinds N SEED > YARD
ROAD, YARD, TREE and QUERY are files; WORK and RESULTS are numbers of words, AREA of bytes; WANTED is 0 to 255.";

/// No area needs more; a longer one is lent at this length, which changes no answer.
const MOST_LENT: u64 = 65_536;

/// Prints the command's answer, or the fault and the usage.
fn main() -> ExitCode {
    let arguments: Vec<OsString> = std::env::args_os().skip(1).collect();
    let written = answer(&arguments).and_then(|bytes| {
        let write = io::stdout().write_all(&bytes);
        write.map_err(|error| format!("standard output: {error}"))
    });
    match written {
        Ok(()) => ExitCode::SUCCESS,
        Err(fault) => {
            let _ = writeln!(io::stderr(), "reference: {fault}\n{USAGE}");
            ExitCode::from(2)
        }
    }
}

/// The bytes that a command prints.
fn answer(arguments: &[OsString]) -> Result<Vec<u8>, String> {
    let (command, rest) = arguments.split_first().ok_or("no command")?;
    match command.to_str() {
        Some("list") => list_command(rest),
        Some("check") => check_command(rest),
        Some("build") => build_command(rest),
        Some("search") => search_command(rest),
        Some("within") => within_command(rest),
        Some("keys") => keys_command(rest),
        Some("outline") => outline_command(rest),
        Some("roads") => roads_command(rest),
        Some("generate") => generate_command(rest),
        _ => Err(format!("unknown command {}", command.display())),
    }
}

/// `reference list < BYTES`.
fn list_command(arguments: &[OsString]) -> Result<Vec<u8>, String> {
    let [] = exactly(arguments)?;
    let input = at_most(io::stdin(), "standard input")?;
    Ok(list(&input).into_bytes())
}

/// `reference check ROAD YARD TREE WORK`.
fn check_command(arguments: &[OsString]) -> Result<Vec<u8>, String> {
    let [road, yard, tree, work] = exactly(arguments)?;
    let (road, yard, tree) = (file(road)?, file(yard)?, file(tree)?);
    let refusal = check(&road, &yard, &tree, &mut vec![0; length(work)?]);
    Ok(format!("{refusal}\n").into_bytes())
}

/// `reference build ROAD YARD M LIMIT WORK AREA OUT`.
fn build_command(arguments: &[OsString]) -> Result<Vec<u8>, String> {
    let [road, yard, m, limit, work, area, out] = exactly(arguments)?;
    let (road, yard) = (file(road)?, file(yard)?);
    let (m, limit) = (number(m)?, number(limit)?);
    let mut work = vec![0; length(work)?];
    let mut area = vec![0; length(area)?];
    let built = build(&road, &yard, m, limit, &mut work, &mut area);
    if built.refusal == 0 {
        let tree = &area[..built.length as usize];
        fs::write(out, tree).map_err(|error| format!("{}: {error}", out.display()))?;
    }
    Ok(format!("{} {}\n", built.refusal, built.length).into_bytes())
}

/// `reference search ROAD TREE QUERY WANTED WORK RESULTS`.
fn search_command(arguments: &[OsString]) -> Result<Vec<u8>, String> {
    let [road, tree, query, wanted, work, results] = exactly(arguments)?;
    let files = [road, tree, query];
    asked(Asked::FirstK, number(wanted)?, files, [work, results])
}

/// `reference within ROAD TREE QUERY WANTED SECONDS WORK RESULTS`.
fn within_command(arguments: &[OsString]) -> Result<Vec<u8>, String> {
    let [road, tree, query, wanted, seconds, work, results] = exactly(arguments)?;
    let within = Asked::Within(number(seconds)?);
    let files = [road, tree, query];
    asked(within, number(wanted)?, files, [work, results])
}

/// `reference keys ROAD TREE QUERY WANTED`.
fn keys_command(arguments: &[OsString]) -> Result<Vec<u8>, String> {
    let [road, tree, query, wanted] = exactly(arguments)?;
    let books = files([road, tree, query])?;
    let books = books.each_ref().map(Vec::as_slice);
    Ok(capacity(number(wanted)?, books).into_bytes())
}

/// `reference outline < TREE`.
fn outline_command(arguments: &[OsString]) -> Result<Vec<u8>, String> {
    let [] = exactly(arguments)?;
    let input = at_most(io::stdin(), "standard input")?;
    Ok(outline(&input).into_bytes())
}

/// What a search of these files on areas of these lengths answers and lists.
fn asked(
    asked: Asked,
    wanted: u8,
    names: [&OsString; 3],
    areas: [&OsString; 2],
) -> Result<Vec<u8>, String> {
    let books = files(names)?;
    let [work, results] = areas;
    let mut work = vec![0; length(work)?];
    let mut results = vec![0; length(results)?];
    let books = books.each_ref().map(Vec::as_slice);
    let found = ask(asked, wanted, books, &mut work, &mut results);
    let numbers = format!(
        "{} {} {} {} {}\n",
        found.refusal, found.settled, found.listed, found.taken, found.measured
    );
    Ok((numbers + &rows(&found, &results)).into_bytes())
}

/// `reference roads ROAD`, where `-` is standard input.
fn roads_command(arguments: &[OsString]) -> Result<Vec<u8>, String> {
    let [road] = exactly(arguments)?;
    let book = if road == "-" {
        at_most(io::stdin(), "standard input")?
    } else {
        let name = road.display().to_string();
        let file = fs::File::open(road).map_err(|error| format!("{name}: {error}"))?;
        at_most(file, &name)?
    };
    Ok(eccentricity(&book).into_bytes())
}

/// `reference generate KIND SEED`, `reference generate yards N SEED` and `reference generate kinds N SEED`.
fn generate_command(arguments: &[OsString]) -> Result<Vec<u8>, String> {
    if let [yards, count, seed] = arguments {
        let book = match yards.to_str() {
            Some("yards") => standard::yard_book(number(count)?, number(seed)?),
            Some("kinds") => standard::kinds_yard_book(number(count)?, number(seed)?),
            _ => return Err(format!("unknown kind {}", yards.display())),
        };
        return book.ok_or("N is not 1 to 256".to_string());
    }
    let [kind, seed] = exactly(arguments)?;
    let book = standard::road_book(&kind.to_string_lossy(), number(seed)?);
    book.ok_or(format!("unknown kind {}", kind.display()))
}

/// The arguments, if there are as many as the command takes.
fn exactly<const N: usize>(arguments: &[OsString]) -> Result<&[OsString; N], String> {
    let wrong = |_| format!("{} arguments, not {N}", arguments.len());
    arguments.try_into().map_err(wrong)
}

/// A whole file.
fn file(name: &OsString) -> Result<Vec<u8>, String> {
    fs::read(name).map_err(|error| format!("{}: {error}", name.display()))
}

/// Three whole files.
fn files([one, other, third]: [&OsString; 3]) -> Result<[Vec<u8>; 3], String> {
    Ok([file(one)?, file(other)?, file(third)?])
}

/// A program's whole input, if it is no longer than it may be.
fn at_most(input: impl Read, name: &str) -> Result<Vec<u8>, String> {
    let mut bytes = Vec::new();
    let read = input.take(MOST_INPUT + 1).read_to_end(&mut bytes);
    read.map_err(|error| format!("{name}: {error}"))?;
    if bytes.len() as u64 > MOST_INPUT {
        return Err(format!("{name}: longer than {MOST_INPUT} bytes"));
    }
    Ok(bytes)
}

/// A decimal number.
fn number<T: FromStr>(argument: &OsString) -> Result<T, String> {
    let parsed = argument.to_str().and_then(|text| text.parse().ok());
    parsed.ok_or(format!("not a number in range: {}", argument.display()))
}

/// An area's length.
fn length(argument: &OsString) -> Result<usize, String> {
    let length: u64 = number(argument)?;
    Ok(length.min(MOST_LENT) as usize)
}
