//! Test 7: "The tree's shape rules don't hold."

use super::{Landmark, Region, Tree, MOST_LEVELS};
use crate::refusal::{refuse_unless, SHAPE};

/// Test 7: "the child counts make all the regions one tree in preorder; the root holds all yards;
/// there are at most 8 levels, root included".
pub fn shape(tree: &Tree) -> Result<(), u32> {
    let after = region_shape(tree, 0, MOST_LEVELS)?;
    refuse_unless(after == tree.regions.len(), SHAPE)?;
    refuse_unless(tree.regions[0].yards == tree.yards, SHAPE)
}

/// Test 7: "children's ranges rise, don't overlap and lie inside the parent's; a parent's yards are its
/// children's sum".
///
/// The answer is the region number after the last descendant.
fn region_shape(tree: &Tree, number: usize, levels: u32) -> Result<usize, u32> {
    refuse_unless(levels > 0, SHAPE)?;
    let region = &tree.regions[number];
    if region.is_leaf() {
        leaf_shape(region)?;
    }
    let mut next = number + 1;
    let mut lowest = region.first;
    let mut yards = 0;
    for _ in 0..region.children {
        let child = tree.regions.get(next).ok_or(SHAPE)?;
        refuse_unless(lowest <= child.first && child.after <= region.after, SHAPE)?;
        lowest = child.after;
        yards += u32::from(child.yards);
        next = region_shape(tree, next, levels - 1)?;
    }
    let sum = region.is_leaf() || yards == u32::from(region.yards);
    refuse_unless(sum, SHAPE)?;
    Ok(next)
}

/// Test 7: "all of a leaf's lists name the same yards, each yard once, inside its range".
fn leaf_shape(region: &Region) -> Result<(), u32> {
    let range = region.first..region.after;
    let named = names(&region.landmarks[0]);
    refuse_unless(named.windows(2).all(|pair| pair[0] < pair[1]), SHAPE)?;
    refuse_unless(named.iter().all(|yard| range.contains(yard)), SHAPE)?;
    let same = region.landmarks.iter().all(|l| names(l) == named);
    refuse_unless(same, SHAPE)
}

/// The yards that a leaf landmark's list names, in rising order.
fn names(landmark: &Landmark) -> Vec<u16> {
    let mut names: Vec<u16> = landmark.list().iter().map(|entry| entry.yard).collect();
    names.sort_unstable();
    names
}
