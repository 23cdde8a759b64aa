//! What the tests share: running the command, folders, the examples.

use std::fs;
use std::path::{Path, PathBuf};
use std::process::{Command, Output, Stdio};

use compare::generate::standard;

/// The names of the four books' files.
pub const BOOKS: [&str; 4] = ["road.book", "yard.book", "tree.book", "query.book"];

/// The command with these arguments.
pub fn command(arguments: &[&str]) -> Command {
    let mut command = Command::new(env!("CARGO_BIN_EXE_dispatch"));
    command.args(arguments).stdin(Stdio::null());
    command
}

/// Runs the command.
pub fn run(arguments: &[&str]) -> Output {
    command(arguments).output().unwrap()
}

/// What a command prints that ends with this status, and nothing on standard error.
pub fn printed(arguments: &[&str], status: i32) -> String {
    let output = run(arguments);
    let fault = String::from_utf8_lossy(&output.stderr);
    assert!(
        output.status.code() == Some(status) && fault.is_empty(),
        "{arguments:?}: {fault}"
    );
    String::from_utf8(output.stdout).unwrap()
}

/// What a command says on standard error that ends with this status, and nothing on standard output.
pub fn refused(arguments: &[&str], status: i32) -> String {
    let output = run(arguments);
    assert_eq!(output.status.code(), Some(status), "{arguments:?}");
    assert!(output.stdout.is_empty(), "{arguments:?}");
    String::from_utf8(output.stderr).unwrap()
}

/// A fresh folder of a test.
pub fn folder(name: &str) -> PathBuf {
    let folder = Path::new(env!("CARGO_TARGET_TMPDIR"))
        .join("dispatch")
        .join(name);
    let _ = fs::remove_dir_all(&folder);
    fs::create_dir_all(&folder).unwrap();
    folder
}

/// A path as an argument.
pub fn told(path: &Path) -> &str {
    path.to_str().unwrap()
}

/// The district files among the examples.
pub fn examples() -> Vec<PathBuf> {
    let folder = Path::new(env!("CARGO_MANIFEST_DIR")).join("../../examples/districts");
    let entries = fs::read_dir(folder)
        .unwrap()
        .map(|entry| entry.unwrap().path());
    let mut files: Vec<PathBuf> = entries
        .filter(|path| path.extension().is_some_and(|e| e == "district"))
        .collect();
    files.sort();
    assert!(files.len() >= 10);
    files
}

/// The examples that are neither refused nor warned of.
pub fn sound_examples() -> Vec<PathBuf> {
    let told = |file: &PathBuf, extension| expected(file, extension).is_some();
    let sound = |file: &PathBuf| !told(file, "refused") && !told(file, "warned");
    examples().into_iter().filter(sound).collect()
}

/// An example's district file.
pub fn example(name: &str) -> PathBuf {
    let found = examples()
        .into_iter()
        .find(|path| path.file_stem().is_some_and(|stem| stem == name));
    found.unwrap_or_else(|| panic!("no example {name}"))
}

/// What an example's command is expected to print, if its file is there.
pub fn expected(example: &Path, extension: &str) -> Option<String> {
    fs::read_to_string(example.with_extension(extension)).ok()
}

/// The standard grid of 1,024 junctions and 256 yards, as text.
pub fn grid(name: &str) -> String {
    let books = folder(name);
    let [roads, yards] = ["road.book", "yard.book"].map(|name| books.join(name));
    fs::write(&roads, standard::road_book("grid", 7).unwrap()).unwrap();
    fs::write(&yards, standard::yard_book(256, 7).unwrap()).unwrap();
    printed(&["text", told(&roads), told(&yards)], 0)
}
