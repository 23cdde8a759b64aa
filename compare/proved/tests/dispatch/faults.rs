//! Bad input ends with status 2 and writes nothing; a failed write ends with status 1.

use std::fs::{self, File};
use std::io::Read;
use std::process::Stdio;

use crate::command::{command, example, expected, folder, grid, printed, refused, told, BOOKS};

/// Texts that are not as they have to be, and how their faults begin after the file's name.
const BAD: [(&str, &str); 8] = [
    (
        "road 0 1 5\nroad 1 2 0",
        ":2: expected seconds from 1 to 65535, not `0`\n",
    ),
    (
        "road 0 1 5\n\nroad 1 0 7",
        ":3: expected each road once: line 1 has `1` and `0` too\n",
    ),
    (
        "yard 0\ncrew 0\nfirst 2\nwithin 300",
        ":4: expected first or within once: line 3 says it too\n",
    ),
    (
        "yard 0\ncrew 0\nwithin 4294967296",
        ":3: expected seconds from 0 to 4294967295, not `4294967296`\n",
    ),
    ("", ":1: expected a road, a yard or a crew"),
    (
        "yard 7\ncrew 0\nroad 0 1 5",
        ": refused 6: road book: junction `7` (line 1) can't be reached from junction `0`: \
         no road names it; misspelt?\n",
    ),
    (
        "road 0 1 5\nroad 1 3 5\nyard 3\ncrew 0",
        ": refused 6: road book: junction `2`, which no line names, can't be reached",
    ),
    (
        "road depot bridge 120\nyard bridge brigde\ncrew depot brigde",
        ":2: warning: one or two letters tell junction `brigde` from `bridge` (line 1); misspelt?\n",
    ),
];

#[test]
fn bad_text_is_told_with_its_line_and_nothing_is_written() {
    let folder = folder("bad");
    let (file, out) = (folder.join("bad.district"), folder.join("out"));
    for (text, message) in BAD {
        fs::write(&file, text).unwrap();
        for command in ["list", "why", "draw"] {
            let fault = refused(&[command, told(&file)], 2);
            let start = format!("dispatch: {}{message}", told(&file));
            assert!(fault.starts_with(&start), "{fault}");
        }
        refused(&["books", told(&file), told(&out)], 2);
        assert!(!out.exists());
    }
}

#[test]
fn a_search_wants_a_yard_and_a_crew() {
    let file = folder("wants").join("half.district");
    for (text, missing) in [("yard 0", "crew"), ("crew 0", "yard")] {
        fs::write(&file, text).unwrap();
        let fault = refused(&["list", told(&file)], 2);
        let message = format!("expected a `{missing}` line");
        assert!(fault.contains(&message), "{fault}");
    }
}

#[test]
fn arguments_and_files_that_are_not_there() {
    let wrong: [&[&str]; 8] = [
        &[],
        &["unknown"],
        &["list"],
        &["list", "a", "b"],
        &["books", "a"],
        &["text"],
        &["text", "a", "b", "c"],
        &["why"],
    ];
    for arguments in wrong {
        assert!(
            refused(arguments, 2).contains("usage: dispatch"),
            "{arguments:?}"
        );
    }
    assert!(refused(&["foo", "a"], 2).starts_with("dispatch: `foo` is no command\n"));
    assert!(
        refused(&["list"], 2).starts_with("dispatch: `list` does not go with these arguments\n")
    );
    assert!(refused(&["list", "no/such/file"], 2).starts_with("dispatch: no/such/file: "));
    assert!(refused(&["text", "no/such/file"], 2).starts_with("dispatch: no/such/file: "));
    assert!(refused(&["list", "/"], 2).starts_with("dispatch: /: "));
    assert!(refused(&["list", "/dev/zero"], 2).contains("expected at most 4194304 bytes"));
    assert!(printed(&["help"], 0).starts_with("usage: dispatch"));
}

#[test]
fn standard_input_is_a_file_too() {
    let file = example("net-n");
    let output = command(&["list", "-"])
        .stdin(File::open(&file).unwrap())
        .output()
        .unwrap();
    assert_eq!(
        String::from_utf8(output.stdout).ok(),
        expected(&file, "list")
    );
}

#[test]
fn failed_writes_end_with_status_1() {
    let file = example("net-n");
    for arguments in [
        ["list", told(&file)],
        ["why", told(&file)],
        ["draw", told(&file)],
    ] {
        let full = File::options().write(true).open("/dev/full").unwrap();
        let output = command(&arguments).stdout(full).output().unwrap();
        assert_eq!(output.status.code(), Some(1));
        assert!(String::from_utf8_lossy(&output.stderr).starts_with("dispatch: standard output: "));
    }
    let in_the_way = folder("in-the-way").join("file");
    fs::write(&in_the_way, "").unwrap();
    let fault = refused(&["books", told(&file), told(&in_the_way)], 1);
    assert!(fault.contains("in-the-way/file/road.book"), "{fault}");
    let unmovable = folder("unmovable");
    fs::create_dir(unmovable.join("query.part")).unwrap();
    refused(&["books", told(&file), told(&unmovable)], 1);
    assert!(BOOKS.iter().all(|book| !unmovable.join(book).exists()));
}

#[test]
fn a_reader_that_leaves_is_a_failed_write() {
    let file = folder("leaves").join("grid.district");
    fs::write(&file, grid("leaves-standard") + "crew 0\nfirst 3\n").unwrap();
    let mut child = command(&["draw", told(&file)])
        .stdout(Stdio::piped())
        .stderr(Stdio::piped())
        .spawn()
        .unwrap();
    let mut start = [0; 5];
    child.stdout.take().unwrap().read_exact(&mut start).unwrap();
    assert_eq!(&start, b"graph");
    let output = child.wait_with_output().unwrap();
    assert_eq!(output.status.code(), Some(1));
    assert!(!output.stderr.is_empty());
}
