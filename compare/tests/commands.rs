//! The command `reference`.

use std::fs;
use std::io::Write;
use std::path::PathBuf;
use std::process::{Command, Output, Stdio};

use compare::generate::damage::{sound_query, sound_road, sound_tree, sound_yard};
use compare::generate::standard;
use compare::query;

/// Runs the command with these arguments and this standard input.
fn run(arguments: &[&str], input: &[u8]) -> Output {
    let mut child = Command::new(env!("CARGO_BIN_EXE_reference"))
        .args(arguments)
        .stdin(Stdio::piped())
        .stdout(Stdio::piped())
        .stderr(Stdio::piped())
        .spawn()
        .unwrap();
    let _ = child.stdin.take().unwrap().write_all(input);
    child.wait_with_output().unwrap()
}

/// What an accepted command prints.
fn printed(arguments: &[&str], input: &[u8]) -> String {
    let output = run(arguments, input);
    assert!(output.status.success() && output.stderr.is_empty());
    String::from_utf8(output.stdout).unwrap()
}

/// A file with these bytes, in this test's own directory.
fn file(name: &str, bytes: &[u8]) -> String {
    let path = PathBuf::from(env!("CARGO_TARGET_TMPDIR")).join(name);
    fs::write(&path, bytes).unwrap();
    path.to_str().unwrap().to_string()
}

#[test]
fn lists() {
    let books = [sound_road(), sound_tree(1), sound_query()].concat();
    let expected = compare::list::list(&books);
    assert_eq!(printed(&["list"], &books), expected);
    assert!(expected.starts_with("yard seconds\n"));
    assert_eq!(printed(&["list"], &[]), "refused 1\n");
}

/// An input of 1 MiB is taken whole, and of one byte more nothing is printed.
#[test]
fn inputs_of_one_mebibyte() {
    let mut book = vec![0, 15, 255, 252, 1];
    book.resize(1_048_576, 0);
    for command in [&["list"][..], &["outline"], &["roads", "-"]] {
        assert_eq!(printed(command, &book).lines().count(), 1);
        let longer = run(command, &[&book[..], &[0]].concat());
        assert_eq!(longer.status.code(), Some(2));
        assert!(longer.stdout.is_empty());
        let fault = "reference: standard input: longer than 1048576 bytes\n";
        assert!(longer.stderr.starts_with(fault.as_bytes()));
    }
}

/// Yards 5, 2, 6 and 1 are 60 + 31, 21 + 70, 75 + 16 and 10 + 81 seconds away: the furthest crews are at 60, 70, 75 and
/// 81.
#[test]
fn checks_builds_and_searches() {
    let road = file("road", &sound_road());
    let yard = file("yard", &sound_yard(1));
    let tree = file("tree", &sound_tree(1));
    let query = file("query", &sound_query());
    let out = file("out", &[]);
    assert_eq!(
        printed(&["check", &road, &yard, &tree, "16384"], &[]),
        "0\n"
    );
    assert_eq!(
        printed(&["check", &road, &yard, &tree, "16383"], &[]),
        "12\n"
    );
    assert_eq!(printed(&["check", &road, &road, &tree, "0"], &[]), "4\n");
    let length = sound_tree(1).len();
    let most = u64::MAX.to_string();
    let build = ["build", &road, &yard, "2", "2", &most, "21981", &out];
    assert_eq!(printed(&build, &[]), format!("0 {length}\n"));
    assert_eq!(fs::read(&out).unwrap(), sound_tree(1));
    let short = ["build", &road, &yard, "2", "2", &most, "21980", &out];
    assert_eq!(printed(&short, &[]), "12 0\n");
    let search = ["search", &road, &tree, &query, "255", "16384", "4"];
    assert_eq!(printed(&search, &[]), "0 1 2 9 4\n5 91\n2 91\n");
    let short = ["search", &road, &tree, &query, "255", "16384", "3"];
    assert_eq!(printed(&short, &[]), "12 0 0 0 0\n");
    let within = |seconds, words| {
        let arguments = [
            "within", &road, &tree, &query, "255", seconds, "16384", words,
        ];
        printed(&arguments, &[])
    };
    assert_eq!(within("91", "10"), "0 1 4 9 4\n5 91\n2 91\n6 91\n1 91\n");
    assert_eq!(within("90", "10"), "0 1 0 5 0\n");
    assert_eq!(within("91", "9"), "12 0 0 0 0\n");
}

/// Yards 1, 2, 5, 6 and 14 of kinds 1, 2, 5, 2 and 4.
#[test]
fn kinds() {
    let road = file("kinds-road", &sound_road());
    let yard = file("kinds-yard", &sound_yard(2));
    let tree = file("kinds-tree", &sound_tree(2));
    let query = file("kinds-query", &sound_query());
    let out = file("kinds-out", &[]);
    let length = sound_tree(2).len();
    let build = ["build", &road, &yard, "2", "2", "16384", "23516", &out];
    assert_eq!(printed(&build, &[]), format!("0 {length}\n"));
    assert_eq!(fs::read(&out).unwrap(), sound_tree(2));
    let short = ["build", &road, &yard, "2", "2", "16384", "23515", &out];
    assert_eq!(printed(&short, &[]), "12 0\n");
    let search = |wanted| {
        let arguments = ["search", &road, &tree, &query, wanted, "16384", "4"];
        printed(&arguments, &[])
    };
    assert_eq!(search("255"), "0 1 2 9 4\n5 91\n2 91\n");
    assert_eq!(search("4"), "0 1 2 5 2\n5 91\n14 371\n");
    assert_eq!(search("8"), "0 1 0 0 0\n");
    assert_eq!(search("0"), "13 0 0 0 0\n");
    let within = |wanted| {
        let arguments = ["within", &road, &tree, &query, wanted, "91", "16384", "10"];
        printed(&arguments, &[])
    };
    assert_eq!(within("2"), "0 1 2 5 2\n2 91\n6 91\n");
    assert_eq!(within("0"), "13 0 0 0 0\n");
}

/// Yards 1, 2, 5 and 6 are 91 seconds away, which is their key, yard 14 and its key 371. By the maximum yards 5, 2, 6,
/// 1 and 14 are 60, 70, 75, 81 and 231 seconds away, and so are their keys. Yards 5 and 14 are of the third kind.
#[test]
fn keys() {
    let road = file("keys-road", &sound_road());
    let tree = file("keys-tree", &sound_tree(2));
    let keys = |aggregate, k, wanted| {
        let query = query::write(aggregate, k, 0, &[0, 7]);
        let query = file(&format!("keys-query-{aggregate}-{k}"), &query);
        printed(&["keys", &road, &tree, &query, wanted], &[])
    };
    let by_sum = "1 91\n2 91\n5 91\n6 91\n14 371\n";
    for (k, counts) in [(1, "0 5 1 91 4"), (5, "0 5 5 371 5"), (64, "0 5 5 371 5")] {
        assert_eq!(keys(0, k, "255"), format!("{counts}\n{by_sum}"));
    }
    let by_maximum = "5 60\n2 70\n6 75\n1 81\n14 231\n";
    assert_eq!(keys(1, 2, "255"), format!("0 5 2 70 2\n{by_maximum}"));
    assert_eq!(keys(0, 1, "4"), "0 2 1 91 1\n5 91\n14 371\n");
    assert_eq!(keys(0, 3, "4"), "0 2 2 371 2\n5 91\n14 371\n");
    assert_eq!(keys(0, 2, "8"), "0 0 0 0 0\n");
}

/// The tests are a search's: road, tree with 8, query with 10 and 11, then 13. Read as a tree, the road book has no
/// yard.
#[test]
fn refused_keys() {
    let road = file("refused-road", &sound_road());
    let tree = file("refused-tree", &sound_tree(1));
    let query = file("refused-query", &sound_query());
    let empty = file("refused-empty", &[]);
    let other = file("refused-other", &compare::road::write(1, &[]));
    let crewless = file("refused-10", &query::write(2, 0, 1, &[]));
    let no_k = file("refused-11", &query::write(0, 0, 1, &[0]));
    for (number, books) in [
        (1, [&empty, &road, &crewless]),
        (3, [&road, &road, &crewless]),
        (8, [&other, &tree, &crewless]),
        (10, [&road, &tree, &crewless]),
        (11, [&road, &tree, &no_k]),
        (13, [&road, &tree, &query]),
    ] {
        let [road, tree, query] = books;
        let arguments = ["keys", road, tree, query, "0"];
        assert_eq!(printed(&arguments, &[]), format!("{number} 0 0 0 0\n"));
    }
}

#[test]
fn outlines() {
    let counts = "junctions 16 regions 4 yards 5 landmarks 2\n";
    let first = "level first after children yards\n1 0 16 3 5\n2 0 4 0 2\n2 4 8 0 2\n2 12 16 0 1\n";
    assert_eq!(
        printed(&["outline"], &sound_tree(1)),
        format!("{counts}{first}")
    );
    let second = "level first after children yards kinds\n1 0 16 3 5 7\n2 0 4 0 2 3\n2 4 8 0 2 7\n2 12 16 0 1 4\n";
    assert_eq!(
        printed(&["outline"], &sound_tree(2)),
        format!("{counts}{second}")
    );
    assert_eq!(printed(&["outline"], &[]), "refused 1\n");
}

#[test]
fn roads() {
    let chain = compare::road::write(1, &[]);
    let one = file("one", &chain);
    assert_eq!(
        printed(&["roads", &one], &[]),
        "junction furthest total\n0 0 0\n"
    );
    assert_eq!(
        printed(&["roads", "-"], &chain),
        "junction furthest total\n0 0 0\n"
    );
    assert_eq!(printed(&["roads", "-"], &[]), "refused 1\n");
    let book = run(&["generate", "longchain", "1"], &[]).stdout;
    let table = printed(&["roads", "-"], &book);
    let total = 65_535_u64 * 1_023 * 512;
    assert!(table.starts_with(&format!("junction furthest total\n0 67042305 {total}\n")));
    assert_eq!(table.lines().count(), 1_025);
}

#[test]
fn roads_of_n() {
    let road = |(low, high, seconds)| compare::road::Road { low, high, seconds };
    let roads = [(0, 1, 2), (1, 2, 3), (2, 3, 4), (3, 4, 1)].map(road);
    let expected = "junction furthest total\n0 10 26\n1 8 20\n2 5 17\n3 9 21\n4 10 24\n";
    assert_eq!(
        printed(&["roads", "-"], &compare::road::write(5, &roads)),
        expected
    );
    assert_eq!(
        printed(&["roads", "-"], &compare::road::write(6, &roads)),
        "refused 6\n"
    );
}

#[test]
fn generates() {
    for kind in standard::KINDS {
        let book = run(&["generate", kind, "4294967295"], &[]).stdout;
        assert!(compare::road::read(&book).is_ok(), "{kind}");
    }
    let book = run(&["generate", "yards", "256", "1"], &[]).stdout;
    let yards = compare::yard::read(&book, 1_024).unwrap();
    assert_eq!((yards.version, yards.yards.len()), (1, 256));
    let book = run(&["generate", "kinds", "256", "1"], &[]).stdout;
    let kinds = compare::yard::read(&book, 1_024).unwrap();
    assert_eq!((kinds.version, kinds.junctions()), (2, yards.junctions()));
    for bit in 0..8 {
        let has = kinds.yards.iter().filter(|yard| yard.kinds == 1 << bit);
        assert_eq!(has.count(), 32);
    }
}

#[test]
fn usage() {
    let road = file("usage", &sound_road());
    let wrong: [&[&str]; 27] = [
        &[],
        &["unknown"],
        &["list", "more"],
        &["check"],
        &["check", "missing file", &road, &road, "1"],
        &["check", &road, &road, &road, "-1"],
        &["check", &road, &road, &road, "words"],
        &["build", &road, &road, "4294967296", "1", "1", "1", "out"],
        &["search", &road, &road, &road, "1", "1"],
        &["search", &road, &road, &road, "256", "1", "1"],
        &["search", &road, &road, &road, "-1", "1", "1"],
        &["within", &road, &road, &road, "1", "1", "1"],
        &["within", &road, &road, &road, "1", "4294967296", "1", "1"],
        &["within", &road, &road, &road, "1", "-1", "1", "1"],
        &["keys", &road, &road, &road],
        &["keys", &road, &road, &road, "1", "1"],
        &["keys", &road, &road, &road, "256"],
        &["keys", &road, &road, &road, "-1"],
        &["keys", &road, &road, "missing file", "1"],
        &["outline", "more"],
        &["roads"],
        &["generate", "unknown", "1"],
        &["generate", "grid", "4294967296"],
        &["generate", "yards", "257", "1"],
        &["generate", "yards", "0", "1"],
        &["generate", "kinds", "0", "1"],
        &["generate", "unknown", "1", "1"],
    ];
    for arguments in wrong {
        let output = run(arguments, &[]);
        assert_eq!(output.status.code(), Some(2), "{arguments:?}");
        assert!(output.stdout.is_empty());
        let message = String::from_utf8(output.stderr).unwrap();
        assert!(message.contains("usage: reference"), "{message}");
    }
}
