//! Tree books that only a check refuses, by 9.

use super::sound::{changed_tree, sound_yards, tree_value, VERSIONS};
use super::tree::{entries, with_list};
use super::{Damage, Damages};
use crate::kinds;
use crate::tree::{Entry, Stored, Tree};

/// Tree books of all versions that only their stored values refuse, by 9, beside the sound yard book of their version.
pub fn false_trees() -> Vec<Damage> {
    let mut all = false_distances();
    all.extend(false_kinds());
    all
}

/// Tree books of all versions with a false distance, least or greatest.
pub fn false_distances() -> Vec<Damage> {
    VERSIONS.into_iter().flat_map(false_distances_of).collect()
}

/// Those of a version.
fn false_distances_of(version: u8) -> Vec<Damage> {
    let mut damages = Damages::new("tree", version);
    let (a, b) = tree_value(version).regions[0].landmarks[1].least_and_greatest();
    for (least, greatest) in [(a - 1, b), (a + 1, b), (a, b - 1), (a, u32::MAX)] {
        let span = Stored::Span { least, greatest };
        let book = changed_tree(version, |t| t.regions[0].landmarks[1].stored = span);
        damages.add(9, "least or greatest untrue", book);
    }
    for region in 1..4 {
        let smaller = with_list(version, region, 1, |list| list[0].distance -= 1);
        damages.add(9, "a list's first distance too small", smaller);
        let greater = with_list(version, region, 1, |list| {
            let last = list.len() - 1;
            list[last].distance += 1;
        });
        damages.add(9, "a list's last distance too great", greater);
    }
    damages.list
}

/// "a false kind byte in a tree fails the check by 9": of a region, of a yard in one list, in all lists of its leaf, and
/// in these and all its regions.
pub fn false_kinds() -> Vec<Damage> {
    let mut damages = Damages::new("tree", kinds::VERSION);
    false_regions(&mut damages);
    false_entries(&mut damages);
    false_yards(&mut damages);
    let false_too = changed_tree(kinds::VERSION, |t| {
        t.regions[1].kinds = kinds::ALL;
        t.regions[0].landmarks[0].stored = Stored::Span {
            least: 0,
            greatest: 0,
        };
    });
    damages.add(9, "a kind byte and a least untrue", false_too);
    damages.list
}

/// Each bit of a region's byte, set where no yard has it or missing where some yard does; every bit at once.
fn false_regions(damages: &mut Damages) {
    for (region, sound) in tree_value(damages.version).regions.iter().enumerate() {
        let mut bytes: Vec<u8> = (0..8).map(|bit| sound.kinds ^ (1 << bit)).collect();
        bytes.extend([!sound.kinds, kinds::ALL]);
        bytes.retain(|&byte| byte != 0);
        for byte in bytes {
            let cause = format!("region {region} of kinds {byte}, not {}", sound.kinds);
            let book = changed_tree(damages.version, |t| t.regions[region].kinds = byte);
            damages.add(9, &cause, book);
        }
    }
}

/// One entry's byte in one list with a bit more, another bit, or every bit: its leaf's lists disagree.
fn false_entries(damages: &mut Damages) {
    for (region, landmark, place) in entries(&tree_value(damages.version)) {
        let changes: [fn(u8) -> u8; 4] = [
            |byte| byte | 128,
            |byte| byte.rotate_left(1),
            |byte| !byte,
            |_| kinds::ALL,
        ];
        for change in changes {
            let cause = format!("region {region}, list {landmark}, place {place}: kinds untrue");
            let other = |list: &mut Vec<Entry>| list[place].kinds = change(list[place].kinds);
            let book = with_list(damages.version, region, landmark, other);
            damages.add(9, &cause, book);
        }
    }
}

/// Every yard with other kinds in all lists of its leaf, its regions' bytes as they were, and as they would have to be.
fn false_yards(damages: &mut Damages) {
    for yard in sound_yards(damages.version) {
        for kinds in [8, yard.kinds | 16, kinds::ALL] {
            let cause = format!("yard {} of kinds {kinds} in all lists", yard.junction);
            let lists = changed_tree(damages.version, |t| set_kinds(t, yard.junction, kinds));
            damages.add(9, &cause, lists);
            let agreeing = changed_tree(damages.version, |t| {
                set_kinds(t, yard.junction, kinds);
                agree(t);
            });
            damages.add(9, &format!("{cause} and regions"), agreeing);
        }
    }
}

/// A yard's byte in every list that has it.
fn set_kinds(tree: &mut Tree, yard: u16, kinds: u8) {
    for landmark in tree.regions.iter_mut().flat_map(|r| &mut r.landmarks) {
        if let Stored::List(list) = &mut landmark.stored {
            let entries = list.iter_mut().filter(|entry| entry.yard == yard);
            entries.for_each(|entry| entry.kinds = kinds);
        }
    }
}

/// The regions' bytes as the yards' bytes in the first lists would have them.
fn agree(tree: &mut Tree) {
    for number in 0..tree.regions.len() {
        let yards = tree.yards_with_kinds(number).into_iter();
        tree.regions[number].kinds = kinds::together(yards.map(|yard| yard.kinds));
    }
}

/// The sound version 1 tree with a false root: for crews 0 and 7 its bound by the sum is twice this least, less 17.
pub fn false_root(least: u32) -> Vec<u8> {
    changed_tree(1, |t| {
        for landmark in &mut t.regions[0].landmarks {
            let greatest = u32::MAX;
            landmark.stored = Stored::Span { least, greatest };
        }
    })
}
