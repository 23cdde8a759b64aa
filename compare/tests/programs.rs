//! The proved programs' expected output, by the plain finder.

use std::fs;
use std::path::{Path, PathBuf};

use compare::build::AREA_BYTES;
use compare::kinds;
use compare::list::{list, within, MOST_INPUT};
use compare::outline::outline;
use compare::refusal::WORK_WORDS;
use compare::road::Road;
use compare::{build, query, road, search, yard};

/// A file of the repository.
fn path(name: &str) -> PathBuf {
    Path::new(env!("CARGO_MANIFEST_DIR")).join("..").join(name)
}

/// The roads of net N's chain drawn out to so many junctions, each further road of 1 second.
fn chain(junctions: u16) -> Vec<Road> {
    let seconds = |low| match low {
        0 => 2,
        1 => 3,
        2 => 4,
        _ => 1,
    };
    let road = |low: u16| Road {
        low,
        high: low + 1,
        seconds: seconds(low),
    };
    (0..junctions - 1).map(road).collect()
}

/// "Net N: junctions 0 to 4 in a chain, seconds 2, 3, 4, 1".
fn n_road() -> Vec<u8> {
    road::write(5, &chain(5))
}

/// "yards 1, 3, 4; m 1, leaf limit 3".
fn tree(road: &[u8]) -> Vec<u8> {
    let mut area = vec![0; AREA_BYTES];
    let yards = yard::write(&[1, 3, 4]);
    let built = build(road, &yards, 1, 3, &mut [0; WORK_WORDS], &mut area);
    assert_eq!(built.refusal, 0);
    area.truncate(built.length as usize);
    area
}

/// An example's line: its name, and what a search by its books answers.
fn line(name: &str, road: &[u8], tree: &[u8], query: &[u8]) -> String {
    let (work, results) = (&mut [0; WORK_WORDS], &mut [0; 128]);
    let found = search(road, tree, query, kinds::ALL, work, results);
    match found.refusal {
        0 => format!("{name}: accepted\n"),
        why => format!("{name}: refused {why}\n"),
    }
}

/// "Seconds 0: 5; 65,535 passes.": of net N's first road.
fn seconds(seconds: u16) -> String {
    let mut roads = chain(5);
    roads[0].seconds = seconds;
    let name = format!("seconds {seconds}");
    let book = road::write(5, &roads);
    line(&name, &book, &tree(&n_road()), &listing())
}

/// "Junctions 1,024 pass; [..] 1,025: 3.": a chain of so many.
fn junctions(junctions: u16) -> String {
    let book = road::write(junctions, &chain(junctions));
    let most = junctions.min(1_024);
    let tree = tree(&road::write(most, &chain(most)));
    line(&format!("junctions {junctions}"), &book, &tree, &listing())
}

/// "Crews 16 pass; 17: 10."
fn crews(crews: usize) -> String {
    let query = query::write(0, 2, 6, &vec![0; crews]);
    let name = format!("crews {crews}");
    line(&name, &n_road(), &tree(&n_road()), &query)
}

/// "values not named are the listing's, with limit 6".
fn listing() -> Vec<u8> {
    query::write(0, 2, 6, &[0, 2])
}

/// A road book of some junctions and no road, beside net N's tree.
fn no_road(junctions: u16) -> String {
    let book = road::write(junctions, &[]);
    let name = format!("junctions {junctions}, no road");
    line(&name, &book, &tree(&n_road()), &listing())
}

#[test]
fn examples_that_are_executed() {
    let lines = [
        seconds(0),
        seconds(65_535),
        junctions(1_024),
        no_road(0),
        junctions(1_025),
        no_road(2),
        crews(16),
        crews(17),
    ];
    let expected = fs::read_to_string(path("crates/examples/stdout")).unwrap();
    assert_eq!(lines.concat(), expected);
}

/// A file that a program takes whole.
fn input(file: &Path) -> Vec<u8> {
    let bytes = fs::read(file).unwrap();
    assert!(bytes.len() as u64 <= MOST_INPUT);
    bytes
}

/// Holds a program's cases against what the plain finder prints.
fn cases(folder: &str, program: fn(&[u8]) -> String) {
    let mut cases = 0;
    for entry in fs::read_dir(path(folder)).unwrap() {
        let file = entry.unwrap().path();
        if file.extension().is_some_and(|extension| extension == "in") {
            let expected = fs::read_to_string(file.with_extension("out")).unwrap();
            assert_eq!(program(&input(&file)), expected, "{}", file.display());
            cases += 1;
        }
    }
    assert!(cases > 0);
}

#[test]
fn cases_of_list() {
    cases("tests/cases/list", list);
}

#[test]
fn cases_of_within() {
    cases("tests/cases/within", within);
}

#[test]
fn cases_of_outline() {
    cases("tests/cases/outline", outline);
}

#[test]
fn the_listing_of_n() {
    let books = [n_road(), tree(&n_road()), query::write(0, 2, 4, &[0, 2])].concat();
    let expected = "yard seconds\n1 5\n3 13\nmeasured 2 taken 4\n";
    for name in ["crates/list/stdin", "examples/net-n.books"] {
        assert_eq!(fs::read(path(name)).unwrap(), books);
        assert_eq!(list(&input(&path(name))), expected);
    }
    let stdout = fs::read_to_string(path("crates/list/stdout")).unwrap();
    assert_eq!(stdout, expected);
}
