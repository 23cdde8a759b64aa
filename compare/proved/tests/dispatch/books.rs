//! Books of a district, and back to text.

use std::fs;
use std::path::Path;

use compare::generate::standard;
use compare::road;

use crate::command::{
    command, example, folder, grid, printed, refused, sound_examples, told, BOOKS,
};

/// Makes a file's books and turns them into text; that text has to give the same road, yard and tree books.
fn round_trip(file: &Path, name: &str) -> String {
    let (first, second) = (
        folder(&format!("{name}-first")),
        folder(&format!("{name}-second")),
    );
    printed(&["books", told(file), told(&first)], 0);
    let text = printed(
        &[
            "text",
            told(&first.join("road.book")),
            told(&first.join("yard.book")),
        ],
        0,
    );
    let again = second.join("again.district");
    fs::write(&again, &text).unwrap();
    printed(&["books", told(&again), told(&second)], 0);
    for book in ["road.book", "yard.book"] {
        assert_eq!(
            fs::read(first.join(book)).unwrap(),
            fs::read(second.join(book)).unwrap(),
            "{file:?} {book}"
        );
    }
    assert!(second.join("tree.book").is_file() && !second.join("query.book").exists());
    text
}

#[test]
fn books_and_back() {
    for file in sound_examples() {
        round_trip(&file, told(Path::new(file.file_stem().unwrap())));
    }
    let file = folder("grid").join("grid.district");
    fs::write(&file, grid("grid-standard")).unwrap();
    assert_eq!(
        round_trip(&file, "grid-books").lines().count(),
        2 + 1_984 + 256
    );
}

#[test]
fn roads_alone() {
    let folder = folder("roads-alone");
    fs::write(folder.join("one"), road::write(1, &[])).unwrap();
    let text = printed(&["text", told(&folder.join("one"))], 0);
    assert_eq!(text, "# 0 roads\njunctions 1\n");
    let file = folder.join("one.district");
    fs::write(&file, text).unwrap();
    assert_eq!(
        printed(&["books", told(&file), told(&folder)], 0),
        "road.book  9 bytes  1 junction, 0 roads\n"
    );
    assert_eq!(
        fs::read(folder.join("road.book")).unwrap(),
        road::write(1, &[])
    );
    assert!(!folder.join("yard.book").exists());
}

/// A version 2 yard book's text gives the same book again.
#[test]
fn kinds_and_back() {
    let folder = folder("kinds-and-back");
    let [roads, yards] = ["road", "yard"].map(|name| folder.join(name));
    let book = standard::kinds_yard_book(8, 7).unwrap();
    fs::write(&roads, standard::road_book("grid", 7).unwrap()).unwrap();
    fs::write(&yards, &book).unwrap();
    let text = printed(&["text", told(&roads), told(&yards)], 0);
    assert!(text.starts_with("# 1984 roads, 8 yards\n"), "{text}");
    assert!(text.ends_with(" kinds k8\n"), "{text}");
    let file = folder.join("kinds.district");
    fs::write(&file, text).unwrap();
    printed(&["books", told(&file), told(&folder)], 0);
    assert_eq!(fs::read(folder.join("yard.book")).unwrap(), book);
}

#[test]
fn books_of_net_n() {
    let folder = folder("net-n").join("made/by/the/command");
    let text = printed(&["books", told(&example("net-n")), told(&folder)], 0);
    let wanted = "road.book   33 bytes  5 junctions, 4 roads
yard.book   13 bytes  3 yards
tree.book   39 bytes  1 region, 1 landmark each, leaves of at most 3
query.book  16 bytes  sum over 2 crews, first 2 of 3 yards, at most 4 steps
";
    assert_eq!(text, wanted);
    let tree = fs::read(folder.join("tree.book")).unwrap();
    let hexadecimal: String = tree.iter().map(|byte| format!("{byte:02x}")).collect();
    let papers = "00000023 01 0005 0001 0003 01 0000 0005 00 0003 0000 00000002 0001 00000009 0003 0000000a 0004";
    assert_eq!(hexadecimal, papers.replace(' ', ""));
    let query = [0, 0, 0, 12, 1, 0, 2, 0, 0, 0, 4, 2, 0, 0, 0, 2];
    assert_eq!(fs::read(folder.join("query.book")).unwrap(), query);
    let left: Vec<_> = fs::read_dir(&folder).unwrap().collect();
    assert_eq!(left.len(), BOOKS.len());
}

#[test]
fn a_drive_is_not_in_the_query_book() {
    let folder = folder("drive");
    let text = printed(&["books", told(&example("none-within")), told(&folder)], 0);
    let line = "query.book  16 bytes  sum over 2 crews, at most 767 steps; \
                without the 4 seconds, which finder_within takes\n";
    assert!(text.ends_with(line), "{text}");
    let query = [0, 0, 0, 12, 1, 0, 1, 0, 0, 2, 255, 2, 0, 0, 0, 2];
    assert_eq!(fs::read(folder.join("query.book")).unwrap(), query);
}

#[test]
fn names_are_told_with_their_numbers() {
    let text = printed(
        &[
            "books",
            told(&example("two-crews")),
            told(&folder("two-crews")),
        ],
        0,
    );
    assert!(
        text.ends_with("\njunctions by number:\n0 depot\n1 mill\n2 quarry\n"),
        "{text}"
    );
}

/// Whatever stands in the way of one book, every book is as it was, and nothing else is left.
#[test]
fn all_books_or_none() {
    for in_the_way in BOOKS {
        let folder = folder(&format!("in-the-way-of-{in_the_way}"));
        printed(&["books", told(&example("net-n")), told(&folder)], 0);
        fs::remove_file(folder.join(in_the_way)).unwrap();
        fs::create_dir(folder.join(in_the_way)).unwrap();
        fs::write(folder.join(in_the_way).join("kept"), "").unwrap();
        let books = || BOOKS.map(|book| fs::read(folder.join(book)).ok());
        let before = books();
        let fault = refused(&["books", told(&example("within")), told(&folder)], 1);
        assert!(fault.contains(in_the_way), "{fault}");
        assert_eq!(books(), before);
        assert_eq!(fs::read_dir(&folder).unwrap().count(), BOOKS.len());
    }
}

/// A book that can't be moved to its place, after others were: those are put back.
#[test]
fn moved_books_are_put_back() {
    let folder = folder("put-back");
    printed(&["books", told(&example("net-n")), told(&folder)], 0);
    fs::remove_file(folder.join("yard.book")).unwrap();
    fs::create_dir_all(folder.join("query.before/kept")).unwrap();
    let books = || BOOKS.map(|book| fs::read(folder.join(book)).ok());
    let before = books();
    let fault = refused(&["books", told(&example("within")), told(&folder)], 1);
    assert!(fault.contains("query.book"), "{fault}");
    assert_eq!(books(), before);
    assert_eq!(fs::read_dir(&folder).unwrap().count(), BOOKS.len());
}

#[test]
fn an_empty_folder_argument_is_refused() {
    let here = folder("empty-argument");
    let output = command(&["books", told(&example("net-n")), ""])
        .current_dir(&here)
        .output()
        .unwrap();
    assert_eq!(output.status.code(), Some(2));
    assert!(String::from_utf8_lossy(&output.stderr).contains("expected a FOLDER"));
    assert_eq!(fs::read_dir(&here).unwrap().count(), 0);
}

#[test]
fn books_of_another_district_are_not_mixed_in() {
    let folder = folder("stale");
    printed(&["books", told(&example("net-n")), told(&folder)], 0);
    let before = fs::read(folder.join("road.book")).unwrap();
    let file = folder.join("roads.district");
    fs::write(&file, "road 0 1 5").unwrap();
    let fault = refused(&["books", told(&file), told(&folder)], 2);
    assert!(
        fault.contains("yard.book, which the district does not give"),
        "{fault}"
    );
    assert_eq!(fs::read(folder.join("road.book")).unwrap(), before);
}
