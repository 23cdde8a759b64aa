//! The command `calls`: how long the proved calls take beside the plain ones, on the grid district with 256 yards,
//! there also for yards of a wanted kind, on the even grid, where many yards have the same sum, and on full books of
//! each kind; searches also beside the plain one with no ceiling ever, with the junctions that each measured yard's
//! walk walks on from, beside the yards' keys, which say without a run how many yards are measured, and beside brute
//! force, in Rust and, where LEMON is installed, with its Dijkstra in C++.
#![forbid(unsafe_code)]

use std::fs;
use std::hint::black_box;
use std::path::Path;
use std::process::Command;
use std::time::Duration;

use compare::build::KINDS_AREA_BYTES;
use compare::generate::{standard, Numbers};
use compare::query::Aggregate;
use compare::refusal::WORK_WORDS;
use compare::search::keys::{greatest_worth, keys, worth_measuring};
use compare::search::state::State;
use compare::search::{run, tested_books};
use compare::{ask_by, kinds, query, road, yard, Asked, Found, Measuring};
use proved::turns::{shortest, Call};

/// How long the calls of a row take turns.
const TURNS: Duration = Duration::from_secs(4);
const SEARCH_TURNS: Duration = Duration::from_secs(2);
const SEED: u32 = 2026;
const YARDS: u32 = 256;
const LANDMARKS: u32 = 4;
const LEAF_LIMITS: [u32; 3] = [1, 16, 256];
/// Of the tree that is searched.
const LEAF_LIMIT: u32 = 16;
/// Of the full tree: every yard a leaf, so that as many walks are made as a tree can ask for.
const FULL_LIMIT: u32 = 1;
const CREWS: [usize; 4] = [2, 4, 8, 16];
const KS: [u8; 3] = [1, 10, 64];
/// Of the drive searches: the crews, and how many of the yards are within the drive.
const DRIVE_CREWS: [usize; 2] = [2, 16];
const WITHIN: [usize; 3] = [YARDS as usize / 100, YARDS as usize / 10, YARDS as usize];
const AGGREGATES: [&str; 2] = ["sum", "maximum"];
/// Of the searches for a kind of yard: the wanted bit, which one yard in eight has; k, and how many of those yards are
/// within the drive.
const WANTED_BIT: u8 = 1;
const WANTED_K: u8 = 10;
const WANTED_WITHIN: usize = YARDS as usize / 32;
/// Of the searches of the even grid: k, and how many yards, and those as far as the last of them, are within the drive.
const TIED_K: u8 = 10;
const TIED_WITHIN: usize = YARDS as usize / 10;
/// The ratio that is wanted of a check and a build, and of a search, each beside the plain one.
const WANTED: f64 = 1.0;
const WANTED_OF_SEARCHES: f64 = 0.8;

/// Above the rows of checks and builds.
const HEADING: &str = "call   leaf limit   proved ms   plain ms   ratio   wanted";
/// The columns of a search's row: two lines of heading, and the width. "No ceiling" is the plain search with none ever.
/// By keys are the yards worth measuring, which the measured ones must be, and the plain time from the books to the
/// keys of all wanted yards. Walked on from are so many junctions for each measured yard, on average.
const COLUMNS: [(&str, &str, usize); 18] = [
    ("", "call", 6),
    ("", "crews", 5),
    ("", "yards", 5),
    ("", "aggregate", 9),
    ("proved", "ms", 6),
    ("plain", "ms", 6),
    ("", "ratio", 5),
    ("", "wanted", 6),
    ("no ceiling", "ms", 10),
    ("measured", "yards", 8),
    ("by keys", "yards", 7),
    ("keys", "ms", 6),
    ("walked on", "junctions", 9),
    ("no ceiling", "junctions", 10),
    ("brute", "ms", 6),
    ("force", "ratio", 5),
    ("LEMON", "ms", 6),
    ("", "ratio", 5),
];

/// The district's road and yard books, and the kinds that its searches want.
struct District {
    road: Vec<u8>,
    yard: Vec<u8>,
    wanted: u8,
}

impl District {
    /// A version 1 yard book of the wanted yards alone, for brute force.
    fn wanted_yards(&self) -> Vec<u8> {
        let book = yard::read(&self.yard, 1_024).expect("a sound book");
        let wanted = book
            .yards
            .iter()
            .filter(|yard| yard.kinds & self.wanted != 0);
        let junctions: Vec<u16> = wanted.map(|yard| yard.junction).collect();
        yard::write(&junctions)
    }
}

/// What a search's row asks for.
struct Row {
    call: &'static str,
    asked: Asked,
    /// How many yards are listed.
    listed: usize,
    aggregate: usize,
    query: Vec<u8>,
}

impl Row {
    /// The first k yards for so many crews.
    fn first_k(crews: usize, k: u8, aggregate: usize) -> Self {
        Row {
            call: "search",
            asked: Asked::FirstK,
            listed: k.into(),
            aggregate,
            query: some_query(crews, k, aggregate),
        }
    }

    /// The drive that so many of the yards are within, with those that are as far as the last of them.
    fn within(district: &District, crews: usize, yards: usize, aggregate: usize) -> Self {
        let query = some_query(crews, 1, aggregate);
        let books: [&[u8]; 3] = [&district.road, &district.wanted_yards(), &query];
        let ranked = ranked(Asked::Within(u32::MAX), books).expect("sound books");
        let seconds = ranked[yards - 1].0;
        Row {
            call: "within",
            asked: Asked::Within(seconds as u32),
            listed: ranked.iter().filter(|yard| yard.0 <= seconds).count(),
            aggregate,
            query,
        }
    }

    /// The row's first words: the call, its crews, its yards and its aggregate.
    fn words(&self) -> Vec<String> {
        vec![
            self.call.to_string(),
            self.query[11].to_string(),
            self.listed.to_string(),
            AGGREGATES[self.aggregate].to_string(),
        ]
    }
}

/// Prints a row for each call: the proved call's time, the plain one's, and the ratio. The argument, if any, is the
/// LEMON peer.
fn main() {
    let peer = std::env::args().nth(1);
    let district = district("grid");
    println!("{HEADING}");
    for leaf_limit in LEAF_LIMITS {
        check_row(&district, leaf_limit);
    }
    for leaf_limit in LEAF_LIMITS {
        build_row(&district, leaf_limit);
    }
    search_rows(&district, peer.as_deref());
    wanted_rows(peer.as_deref());
    tied_rows(peer.as_deref());
    full_rows(peer.as_deref());
}

/// The two lines above the rows of searches.
fn print_search_heading() {
    print_line(&COLUMNS.map(|column| column.0.to_string()));
    print_line(&COLUMNS.map(|column| column.1.to_string()));
}

/// Words in the columns of a search's row, as many as there are.
fn print_line(words: &[String]) {
    let columns = words.iter().zip(COLUMNS);
    let words: Vec<String> = columns
        .map(|(word, (_, _, width))| format!("{word:>width$}"))
        .collect();
    println!("{}", words.join(" ").trim_end());
}

/// Searches for the first k yards, and drive searches.
fn search_rows(district: &District, peer: Option<&str>) {
    print_search_heading();
    let tree = built(district, LEAF_LIMIT);
    for crews in CREWS {
        for k in KS {
            for aggregate in 0..AGGREGATES.len() {
                search_row(district, &tree, &Row::first_k(crews, k, aggregate), peer);
            }
        }
    }
    for crews in DRIVE_CREWS {
        for yards in WITHIN {
            for aggregate in 0..AGGREGATES.len() {
                let row = Row::within(district, crews, yards, aggregate);
                search_row(district, &tree, &row, peer);
            }
        }
    }
}

/// The grid with a version 2 yard book: its check and build, and searches for a wanted bit that one yard in eight has.
fn wanted_rows(peer: Option<&str>) {
    println!("a wanted bit that one yard in eight has: grid, yard and tree books of version 2");
    let district = district_of_kinds("grid");
    println!("{HEADING}");
    check_row(&district, LEAF_LIMIT);
    build_row(&district, LEAF_LIMIT);
    print_search_heading();
    let tree = built(&district, LEAF_LIMIT);
    for crews in DRIVE_CREWS {
        for aggregate in 0..AGGREGATES.len() {
            let first = Row::first_k(crews, WANTED_K, aggregate);
            search_row(&district, &tree, &first, peer);
            let drive = Row::within(&district, crews, WANTED_WITHIN, aggregate);
            search_row(&district, &tree, &drive, peer);
        }
    }
}

/// Searches of the even grid, where many yards have the same sum, and the furthest crews decide.
fn tied_rows(peer: Option<&str>) {
    println!("many yards of the same sum: even grid, leaf limit {LEAF_LIMIT}");
    print_search_heading();
    let district = district("even");
    let tree = built(&district, LEAF_LIMIT);
    for crews in DRIVE_CREWS {
        for aggregate in 0..AGGREGATES.len() {
            let first = Row::first_k(crews, TIED_K, aggregate);
            search_row(&district, &tree, &first, peer);
            let drive = Row::within(&district, crews, TIED_WITHIN, aggregate);
            search_row(&district, &tree, &drive, peer);
        }
    }
}

/// Full books of each kind of district: 256 yards, every yard a leaf, 16 crews, and k 64 or all yards within the drive.
fn full_rows(peer: Option<&str>) {
    for kind in standard::KINDS {
        println!("full books: {kind}, 256 yards, leaf limit {FULL_LIMIT}");
        let district = district(kind);
        println!("{HEADING}");
        check_row(&district, FULL_LIMIT);
        build_row(&district, FULL_LIMIT);
        print_search_heading();
        let tree = built(&district, FULL_LIMIT);
        for aggregate in 0..AGGREGATES.len() {
            search_row(&district, &tree, &Row::first_k(16, 64, aggregate), peer);
        }
        let all = Row::within(&district, 16, YARDS as usize, 0);
        search_row(&district, &tree, &all, peer);
    }
}

/// A district of a kind, with its yards; all are wanted.
fn district(kind: &str) -> District {
    District {
        road: standard::road_book(kind, SEED).expect("the kind is known"),
        yard: standard::yard_book(YARDS, SEED).expect("a book may have so many"),
        wanted: kinds::ALL,
    }
}

/// The same with a version 2 yard book; one yard in eight is wanted.
fn district_of_kinds(kind: &str) -> District {
    District {
        yard: standard::kinds_yard_book(YARDS, SEED).expect("a book may have so many"),
        wanted: WANTED_BIT,
        ..district(kind)
    }
}

/// The district's tree.
fn built(District { road, yard, .. }: &District, leaf_limit: u32) -> Vec<u8> {
    let mut area = vec![0; KINDS_AREA_BYTES];
    let work = &mut [0; WORK_WORDS];
    let built = compare::build(road, yard, LANDMARKS, leaf_limit, work, &mut area);
    area.truncate(built.length as usize);
    area
}

/// A check of the district's tree.
fn check_row(district: &District, leaf_limit: u32) {
    let tree = built(district, leaf_limit);
    let District { road, yard, .. } = district;
    let ours: Call = &mut |work| proved::check(road, yard, &tree, work);
    let theirs: Call = &mut |work| compare::check(road, yard, &tree, work);
    row("check", leaf_limit, ours, theirs);
}

/// A build of the district's tree.
fn build_row(District { road, yard, .. }: &District, leaf_limit: u32) {
    let (one, other) = (
        &mut vec![0; KINDS_AREA_BYTES],
        &mut vec![0; KINDS_AREA_BYTES],
    );
    let ours: Call =
        &mut |work| proved::build(road, yard, LANDMARKS, leaf_limit, work, one).refusal;
    let theirs: Call =
        &mut |work| compare::build(road, yard, LANDMARKS, leaf_limit, work, other).refusal;
    row("build", leaf_limit, ours, theirs);
}

/// One row of a check or a build.
fn row(call: &str, leaf_limit: u32, ours: Call, theirs: Call) {
    let [best, plain] = shortest(TURNS, [ours, theirs]);
    let ratio = best / plain;
    println!("{call:<6} {leaf_limit:>10} {best:>11.2} {plain:>10.2} {ratio:>7.2} {WANTED:>8.1}");
}

/// One search's row, also beside the plain search with no ceiling, the keys and brute force. All must give the same
/// list, and the keys the measured count.
fn search_row(district: &District, tree: &[u8], row: &Row, peer: Option<&str>) {
    let (asked, wanted, yards) = (row.asked, district.wanted, district.wanted_yards());
    let books: [&[u8]; 3] = [&district.road, tree, &row.query];
    let without_tree: [&[u8]; 3] = [&district.road, &yards, &row.query];
    let by =
        |way, work: &mut [u32], list: &mut [u32]| ask_by(way, asked, wanted, books, work, list);
    let mut lists = [[0; 2 * YARDS as usize]; 4];
    let [one, other, third, fourth] = &mut lists;
    let mut measured = 0;
    let ours: Call = &mut |work| {
        let found = proved::ask(asked, wanted, books, work, one);
        measured = found.measured as usize;
        settled(found)
    };
    let theirs: Call = &mut |work| settled(by(Measuring::Ways, work, other));
    let whole: Call = &mut |work| settled(by(Measuring::WaysWithoutCeiling, work, third));
    let brute: Call = &mut |_| brute_force(asked, without_tree, fourth);
    let keyed: Call = &mut |_| all_keys(asked, wanted, books);
    let [best, plain, whole, brute, keyed] =
        shortest(SEARCH_TURNS, [ours, theirs, whole, brute, keyed]);
    assert!(lists.iter().all(|list| *list == lists[0]));
    let list = &lists[0][..2 * row.listed];
    let worth = worth(asked, wanted, books, list);
    assert_eq!(measured, worth);
    let mut words = row.words();
    words.extend([milliseconds(best), milliseconds(plain), ratio(best, plain)]);
    words.extend([format!("{WANTED_OF_SEARCHES:.1}"), milliseconds(whole)]);
    words.extend([measured.to_string(), worth.to_string(), milliseconds(keyed)]);
    words.extend(walks(asked, wanted, books));
    words.extend([milliseconds(brute), ratio(best, brute)]);
    if let Some(peer) = peer {
        let lemon = by_peer(Path::new(peer), asked, without_tree, list);
        words.extend([milliseconds(lemon), ratio(best, lemon)]);
    }
    print_line(&words);
}

/// A time in milliseconds.
fn milliseconds(time: f64) -> String {
    format!("{time:.3}")
}

/// One time beside another.
fn ratio(time: f64, other: f64) -> String {
    format!("{:.2}", time / other)
}

/// The plain computation of the keys of all wanted yards, from the books. The answer is the refusal.
fn all_keys(asked: Asked, wanted: u8, books: [&[u8]; 3]) -> u32 {
    match tested_books(asked, wanted, books) {
        Ok(search) => {
            black_box(keys(&search));
            0
        }
        Err(refusal) => refusal,
    }
}

/// How many yards are worth measuring by the keys, for a search that settles with this list.
fn worth(asked: Asked, wanted: u8, books: [&[u8]; 3], list: &[u32]) -> usize {
    let search = tested_books(asked, wanted, books).expect("sound books");
    let pairs = list.chunks(2);
    let pairs: Vec<(u64, u16)> = pairs.map(|p| (p[1].into(), p[0] as u16)).collect();
    worth_measuring(&keys(&search), greatest_worth(&search, &pairs)).len()
}

/// How many junctions each measured yard's ways walk on from, on average, with the ceiling and without.
fn walks(asked: Asked, wanted: u8, books: [&[u8]; 3]) -> [String; 2] {
    [Measuring::Ways, Measuring::WaysWithoutCeiling].map(|measuring| {
        let search = tested_books(asked, wanted, books).expect("sound books");
        let State {
            walked_on,
            measured,
            ..
        } = run(&search.by(measuring)).state;
        format!("{:.1}", walked_on as f64 / measured.len() as f64)
    })
}

/// The shortest time of brute force by the LEMON peer, which must give the same list.
fn by_peer(peer: &Path, asked: Asked, books: [&[u8]; 3], list: &[u32]) -> f64 {
    let names = ["road", "yard", "query"]
        .map(|name| std::env::temp_dir().join(format!("calls-{}-{name}", std::process::id())));
    for (name, book) in names.iter().zip(books) {
        fs::write(name, book).expect("there is a folder for temporary files");
    }
    let seconds = (SEARCH_TURNS / 4).as_secs_f64().to_string();
    let drive = match asked {
        Asked::FirstK => None,
        Asked::Within(drive) => Some(drive.to_string()),
    };
    let output = Command::new(peer)
        .arg("search")
        .args(&names)
        .arg(seconds)
        .args(drive)
        .output()
        .expect("the peer runs");
    for name in &names {
        let _ = fs::remove_file(name);
    }
    let text = String::from_utf8(output.stdout).expect("the peer prints text");
    let mut words = text.split_whitespace();
    let time = words
        .next()
        .and_then(|word| word.parse().ok())
        .expect("the peer prints its time");
    let theirs: Vec<u32> = words
        .map(|word| word.parse().expect("the peer prints numbers"))
        .collect();
    assert_eq!(theirs, list);
    time
}

/// A query with so many crews anywhere in the district, and steps enough.
fn some_query(crews: usize, k: u8, aggregate: usize) -> Vec<u8> {
    let mut numbers = Numbers::new(u64::from(SEED));
    let crews: Vec<u16> = (0..crews).map(|_| numbers.between16(0, 1_023)).collect();
    query::write(aggregate as u8, k, u32::MAX, &crews)
}

/// The refusal of a search that must have settled.
fn settled(found: Found) -> u32 {
    assert_eq!(found.settled, 1);
    found.refusal
}

/// What a search lists, without a tree: the same words are written. The answer is the refusal.
fn brute_force(asked: Asked, books: [&[u8]; 3], results: &mut [u32]) -> u32 {
    let ranked = match ranked(asked, books) {
        Ok(ranked) => ranked,
        Err(refusal) => return refusal,
    };
    for (words, (distance, yard)) in results.chunks_mut(2).zip(ranked) {
        words.copy_from_slice(&[u32::from(yard), distance as u32]);
    }
    0
}

/// The yards asked for of all, in yard order; each crew's distances by Dijkstra.
fn ranked(asked: Asked, [road, yard, query]: [&[u8]; 3]) -> Result<Vec<(u64, u16)>, u32> {
    let road = road::read(road)?;
    let yards = yard::read(yard, road.junctions)?.junctions();
    let query = query::read(query, road.junctions)?;
    let distances = |&crew: &u16| road.least_distances(crew);
    let rows: Vec<Vec<u32>> = query.crews.iter().map(distances).collect();
    let placed = |&yard: &u16| {
        let to_crews = rows.iter().map(|row| u64::from(row[usize::from(yard)]));
        let furthest = Aggregate::Maximum.over(to_crews.clone());
        (query.aggregate.over(to_crews), furthest, yard)
    };
    let mut ranked: Vec<(u64, u64, u16)> = yards.iter().map(placed).collect();
    if let Asked::Within(seconds) = asked {
        ranked.retain(|&(distance, _, _)| distance <= u64::from(seconds));
    }
    ranked.sort_unstable();
    if asked == Asked::FirstK {
        ranked.truncate(query.k);
    }
    let listed = |(distance, _, yard)| (distance, yard);
    Ok(ranked.into_iter().map(listed).collect())
}
