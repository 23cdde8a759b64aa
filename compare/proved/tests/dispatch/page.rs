//! docs/DISTRICT.md shows what is printed.

use std::fs;
use std::path::Path;

use crate::command::{command, examples, folder};

/// The commands of docs/DISTRICT.md, each with the lines that it is said to print.
fn documented() -> Vec<(String, String)> {
    let page = Path::new(env!("CARGO_MANIFEST_DIR")).join("../../docs/DISTRICT.md");
    let mut commands: Vec<(String, String)> = Vec::new();
    let mut shown = false;
    for line in fs::read_to_string(page).unwrap().lines() {
        if let Some(command) = line.strip_prefix("$ dispatch ") {
            commands.push((command.to_string(), String::new()));
            shown = true;
        } else if line == "```" {
            shown = false;
        } else if shown {
            commands.last_mut().unwrap().1 += &format!("{line}\n");
        }
    }
    commands
}

#[test]
fn the_page_shows_what_is_printed() {
    let folder = folder("page");
    for file in examples() {
        fs::copy(&file, folder.join(file.file_name().unwrap())).unwrap();
    }
    let commands = documented();
    assert!(commands.len() >= 7);
    for (arguments, text) in commands {
        let arguments: Vec<&str> = arguments.split_whitespace().collect();
        let output = command(&arguments).current_dir(&folder).output().unwrap();
        let printed = [output.stderr, output.stdout].concat();
        assert_eq!(String::from_utf8(printed).unwrap(), text, "{arguments:?}");
    }
}
