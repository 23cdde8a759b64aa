//! The command `bench`: how long the proved program takes beside the plain one, and beside LEMON's Dijkstra in C++ where that is installed, on the same books.
#![forbid(unsafe_code)]

use std::fs::{self, File};
use std::path::{Path, PathBuf};
use std::process::{Command, ExitCode, Stdio};
use std::time::{Duration, Instant};

use compare::generate::standard;

/// How often each program is run; the shortest time counts.
const RUNS: usize = 15;
/// The road books that are measured, by their kinds, and the ratios that are wanted of each: to the plain program, and to LEMON.
const BOOKS: [(&str, f64, f64); 5] = [
    ("grid", 1.0, 0.45),
    ("random", 1.0, 0.45),
    ("star", 2.0, 1.2),
    ("chain", 2.0, 1.2),
    ("ring", 2.0, 1.2),
];
const SEED: u32 = 2026;

/// A program with its arguments; a road book goes to its standard input.
struct Program {
    path: PathBuf,
    arguments: &'static [&'static str],
}

/// Prints a row for each road book: the times of the programs, and the proved one's ratio to each other.
fn main() -> ExitCode {
    let arguments: Vec<String> = std::env::args().skip(1).collect();
    let (proved, peer) = match &arguments[..] {
        [proved] => (proved, None),
        [proved, peer] => (proved, Some(peer)),
        _ => {
            eprintln!("usage: bench ECCENTRICITY [LEMON-PEER]");
            return ExitCode::from(2);
        }
    };
    match roads(proved, peer) {
        Ok(()) => ExitCode::SUCCESS,
        Err(fault) => {
            eprintln!("bench: {fault}");
            ExitCode::from(1)
        }
    }
}

/// All distances of each road book, by `eccentricity`, by `reference roads`, and by the peer if there is one.
fn roads(proved: &str, peer: Option<&String>) -> Result<(), String> {
    let mut programs = vec![
        Program {
            path: proved.into(),
            arguments: &[],
        },
        Program {
            path: reference()?,
            arguments: &["roads", "-"],
        },
    ];
    match peer {
        Some(path) => programs.push(Program {
            path: path.into(),
            arguments: &["roads"],
        }),
        None => println!("LEMON (liblemon-dev) is not installed: no C++ peer is measured"),
    }
    println!("road book   proved ms   plain ms   ratio   wanted   LEMON ms   ratio   wanted");
    for (kind, to_plain, to_peer) in BOOKS {
        let path = std::env::temp_dir().join(format!("bench-{}-{kind}", std::process::id()));
        let book = standard::road_book(kind, SEED).ok_or("no such kind")?;
        fs::write(&path, book).map_err(|error| error.to_string())?;
        let measured = row(kind, [to_plain, to_peer], &programs, &path);
        let _ = fs::remove_file(&path);
        measured?;
    }
    Ok(())
}

/// One road book's row; all programs must print the same.
fn row(kind: &str, wanted: [f64; 2], programs: &[Program], book: &Path) -> Result<(), String> {
    let outputs: Result<Vec<_>, _> = programs
        .iter()
        .map(|program| printed(program, book))
        .collect();
    if outputs?.windows(2).any(|pair| pair[0] != pair[1]) {
        return Err(format!("the programs differ on {kind}"));
    }
    let mut best = vec![Duration::MAX; programs.len()];
    for _ in 0..RUNS {
        for (best, program) in best.iter_mut().zip(programs) {
            *best = (*best).min(timed(program, book)?);
        }
    }
    let ms: Vec<f64> = best.iter().map(|time| time.as_secs_f64() * 1e3).collect();
    print!("{kind:<9} {:>11.1}", ms[0]);
    for (theirs, wanted) in ms[1..].iter().zip(wanted) {
        print!(" {theirs:>10.1} {:>7.2} {wanted:>8.2}", ms[0] / theirs);
    }
    println!();
    Ok(())
}

/// The plain program stands beside this one.
fn reference() -> Result<PathBuf, String> {
    let own = std::env::current_exe().map_err(|error| error.to_string())?;
    Ok(own.with_file_name("reference"))
}

/// What a program prints for a book on its standard input.
fn printed(program: &Program, book: &Path) -> Result<Vec<u8>, String> {
    let output = command(program, book)?.output();
    output
        .map(|output| output.stdout)
        .map_err(|error| error.to_string())
}

/// How long a program takes on a book, its output thrown away.
fn timed(program: &Program, book: &Path) -> Result<Duration, String> {
    let mut command = command(program, book)?;
    let start = Instant::now();
    let status = command
        .stdout(Stdio::null())
        .status()
        .map_err(|error| error.to_string())?;
    let took = start.elapsed();
    if status.success() {
        Ok(took)
    } else {
        Err(format!("{} failed", program.path.display()))
    }
}

/// A program with a book on its standard input.
fn command(program: &Program, book: &Path) -> Result<Command, String> {
    let input = File::open(book).map_err(|error| error.to_string())?;
    let mut command = Command::new(&program.path);
    command.args(program.arguments).stdin(input);
    Ok(command)
}
