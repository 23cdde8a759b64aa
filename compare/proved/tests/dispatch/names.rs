//! Names that may be misspelt, and names that a line declares.

use std::fs;
use std::path::{Path, PathBuf};

use crate::command::{folder, refused, run, sound_examples, told};

/// README's own district.
fn readme() -> String {
    let page = Path::new(env!("CARGO_MANIFEST_DIR")).join("../../README.md");
    let page = fs::read_to_string(page).unwrap();
    let start = page.find("road harbour chapel").unwrap();
    let end = start + page[start..].find("```").unwrap();
    page[start..end].to_string()
}

/// A district's file.
fn file(name: &str, text: &str) -> PathBuf {
    let file = folder(name).join("names.district");
    fs::write(&file, text).unwrap();
    file
}

/// What a command says on standard error, and what it prints, with status 0.
fn said(command: &str, file: &Path) -> (String, String) {
    let output = run(&[command, told(file)]);
    assert_eq!(output.status.code(), Some(0), "{command} {file:?}");
    let text = |bytes: Vec<u8>| String::from_utf8(bytes).unwrap();
    (text(output.stderr), text(output.stdout))
}

#[test]
fn a_misspelt_end_of_a_road_is_warned_of() {
    let text = readme().replace("road gate harbour 90", "road gate harbuor 90");
    let file = file("misspelt", &text);
    let warning = "junction `harbuor` is named only once, and one or two letters tell it from `harbour` (line 1); \
                   misspelt?\n";
    for command in ["list", "why", "draw"] {
        let (fault, _) = said(command, &file);
        assert_eq!(
            fault,
            format!("dispatch: {}:5: warning: {warning}", told(&file))
        );
    }
    let (_, list) = said("list", &file);
    assert!(
        list.starts_with(&format!("warning: line 5: {warning}sum over 2 crews, ")),
        "{list}"
    );
    assert!(list.contains("  1  chapel"), "{list}");
}

#[test]
fn sound_districts_are_not_warned_of() {
    let numbered =
        "road yard1 yard2 5\nroad yard2 j10 5\nroad j10 j11 5\nyard yard1 yard2\ncrew j10 j11\n";
    let pairs = "road east-gate west-gate 5\nroad west-gate mill 5\nroad mill hill 5\n\
                 yard hill east-gate\ncrew mill\n";
    for (name, text) in [
        ("readme", readme().as_str()),
        ("numbered", numbered),
        ("pairs", pairs),
    ] {
        let (fault, list) = said("list", &file(name, text));
        assert!(
            fault.is_empty() && list.starts_with("sum over"),
            "{fault}{list}"
        );
    }
    for file in sound_examples() {
        assert!(run(&["list", told(&file)]).stderr.is_empty(), "{file:?}");
    }
}

#[test]
fn near_names_and_names_that_stand_once() {
    let roads = "road depot mill 5\nroad depot quarry 5\nroad mill Depot 5\nroad Depot qarry 5\nroad depot lane 9\n";
    let file = file("near", &format!("{roads}yard mill\ncrew quarry qarry\n"));
    let (fault, _) = said("list", &file);
    let lines: Vec<&str> = fault.lines().collect();
    let wanted = [
        ":3: warning: only capitals tell junction `Depot` from `depot` (line 1); misspelt?",
        ":4: warning: one or two letters tell junction `qarry` from `quarry` (line 2); misspelt?",
        ":5: warning: junction `lane` is named only once; misspelt?",
    ];
    assert_eq!(lines.len(), wanted.len(), "{fault}");
    for (line, end) in lines.iter().zip(wanted) {
        assert!(line.ends_with(end), "{line}");
    }
}

#[test]
fn many_warnings_are_told_in_twenty_lines() {
    let ends: String = (0..100).map(|n| format!("road depot end{n} 5\n")).collect();
    let (fault, _) = said(
        "list",
        &file("many", &format!("{ends}yard depot\ncrew depot\n")),
    );
    assert_eq!(fault.lines().count(), 20);
    let last = ":20: warning: and 81 more junctions, from here on, may be misspelt\n";
    assert!(fault.ends_with(last), "{fault}");
}

#[test]
fn a_line_declares_all_names() {
    let names = "junctions harbour chapel station\njunctions ring gate\n";
    let sound = file("declared", &(readme() + names));
    assert!(said("list", &sound).0.is_empty());
    let text =
        names.to_string() + &readme().replace("road gate harbour 90", "road gate harbuor 90");
    let wrong = file("undeclared", &text);
    for command in ["list", "why", "draw"] {
        let message = "7: expected a name that line 1 declares, not `harbuor`; misspelt?\n";
        assert_eq!(
            refused(&[command, told(&wrong)], 2),
            format!("dispatch: {}:{message}", told(&wrong))
        );
    }
    let near = "junctions lane lanes dead-end\nroad lane lanes 5\nroad lane dead-end 5\nyard lanes\ncrew lane\n";
    assert!(said("list", &file("declared-near", near)).0.is_empty());
}

#[test]
fn a_yard_or_a_crew_where_no_road_ends() {
    let file_of = |text: &str| file("first-name", text);
    let first = file_of(
        "crew chapel\nyard mill chapel\nroad depot mill 5\nroad depot quarry 5\ncrew quarry\n",
    );
    assert_eq!(
        refused(&["list", told(&first)], 2),
        format!(
            "dispatch: {}: refused 6: road book: junction `chapel` (line 1) can't be reached from junction `mill`: \
             no road names it; misspelt?\n",
            told(&first)
        )
    );
    let roads = "road depot bridge 120\nroad bridge mill 60\n";
    for (lines, name, line) in [
        ("yard mill farm\ncrew depot farm\n", "farm", 3),
        ("yard mill\ncrew depot pier pier\n", "pier", 4),
    ] {
        let file = file("no-road", &format!("{roads}{lines}"));
        let end = format!(
            ": refused 6: road book: junction `{name}` (line {line}) can't be reached from junction `depot`: \
             no road names it; misspelt?\n"
        );
        assert_eq!(
            refused(&["list", told(&file)], 2),
            format!("dispatch: {}{end}", told(&file))
        );
    }
}
