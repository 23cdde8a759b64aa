//! What the program `outline` prints.

use std::fmt::Write;

use crate::kinds;
use crate::tree::{read_alone, Tree};

/// `refused N` alone, or the counts of a tree book and a line for each region in preorder.
pub fn outline(tree: &[u8]) -> String {
    match read_alone(tree) {
        Ok(tree) => counts(&tree) + names(&tree) + &lines(&tree, 0, 1),
        Err(refusal) => format!("refused {refusal}\n"),
    }
}

/// The header's counts.
fn counts(tree: &Tree) -> String {
    let (junctions, regions) = (tree.junctions, tree.regions.len());
    let (yards, m) = (tree.yards, tree.m);
    format!("junctions {junctions} regions {regions} yards {yards} landmarks {m}\n")
}

/// The columns' names; a version 1 tree has no kinds.
fn names(tree: &Tree) -> &'static str {
    match tree.version {
        1 => "level first after children yards\n",
        _ => "level first after children yards kinds\n",
    }
}

/// The lines of a region on this level, the root's being 1, and of all below it.
fn lines(tree: &Tree, number: usize, level: u32) -> String {
    let region = &tree.regions[number];
    let mut lines = format!(
        "{level} {} {} {} {}",
        region.first, region.after, region.children, region.yards
    );
    if kinds::size(tree.version) > 0 {
        let _ = write!(lines, " {}", region.kinds);
    }
    lines.push('\n');
    for child in tree.children(number) {
        lines.push_str(&self::lines(tree, child, level + 1));
    }
    lines
}
