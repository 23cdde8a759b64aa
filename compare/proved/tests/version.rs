//! The library's version is the header's.

use std::fs;
use std::path::Path;

#[test]
fn the_library_has_the_headers_version() {
    let header = Path::new(env!("CARGO_MANIFEST_DIR")).join("../../include/finder.h");
    let header = fs::read_to_string(header).unwrap();
    let lines = header.lines();
    let mut numbers = lines.filter_map(|line| line.strip_prefix("#define FINDER_VERSION_NUMBER "));
    let number = numbers
        .next()
        .and_then(|line| line.split_whitespace().next());
    assert_eq!(
        number.and_then(|word| word.parse().ok()),
        Some(proved::version())
    );
}
