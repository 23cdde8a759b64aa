//! Tree books of another shape.

use super::sound::{changed_tree, JUNCTIONS};
use super::Damages;
use crate::kinds;
use crate::tree::{self, Landmark, Region, Stored, Tree};

/// Tree books whose regions are not one tree, or too deep, or without the right yards.
pub fn tree_shapes(damages: &mut Damages) {
    let mut add = |cause: &str, change: fn(&mut Tree)| {
        damages.add(7, cause, changed_tree(damages.version, change));
    };
    add("a region after the tree", |t| {
        t.regions[0].children = 2;
        t.regions[0].yards = 4;
        t.yards = 4;
    });
    add("two roots", |t| {
        t.regions.remove(0);
        t.yards = 2;
    });
    add("a region missing", |t| t.regions[0].children = 4);
    add("all children missing", |t| t.regions.truncate(1));
    add("more yards than the children", |t| {
        t.regions[0].yards = 6;
        t.yards = 6;
    });
    add("fewer yards than the children", |t| {
        t.regions[0].yards = 4;
        t.yards = 4;
    });
    add("the root lacks a yard", |t| t.yards = 6);
    add("the root has a yard too many", |t| t.yards = 4);
    let nine = tree::write(&deep_tree(damages.version, 9));
    damages.add(7, "nine levels", nine);
}

/// Tree books whose ranges fall, overlap or leave the parent's.
pub fn range_shapes(damages: &mut Damages) {
    let mut add = |cause: &str, change: fn(&mut Tree)| {
        damages.add(7, cause, changed_tree(damages.version, change));
    };
    add("children exchanged", |t| t.regions.swap(1, 2));
    add("children overlap", |t| t.regions[2].first = 3);
    add("children alike", |t| t.regions[2] = t.regions[1].clone());
    add("child before the parent", |t| {
        move_root(t, 1, 16);
    });
    add("child past the parent", |t| {
        move_root(t, 0, 15);
    });
}

/// The root with another range, its landmarks in it.
fn move_root(tree: &mut Tree, first: u16, after: u16) {
    let root = &mut tree.regions[0];
    (root.first, root.after) = (first, after);
    for landmark in &mut root.landmarks {
        landmark.junction = landmark.junction.clamp(first, after - 1);
    }
}

/// Tree books whose leaf lists name wrong yards.
pub fn leaf_shapes(damages: &mut Damages) {
    let mut add = |cause: &str, lists: [[(u32, u16); 2]; 2]| {
        let book = changed_tree(damages.version, |t| {
            for (landmark, list) in t.regions[2].landmarks.iter_mut().zip(lists) {
                landmark.stored = Stored::list(&list);
            }
        });
        damages.add(7, cause, book);
    };
    let sound = [(14, 5), (29, 6)];
    add("yard twice in each list", [[(14, 5), (29, 5)]; 2]);
    add("yard twice in one list", [sound, [(14, 5), (29, 5)]]);
    add("lists differ", [sound, [(14, 5), (29, 7)]]);
    add("yard below the range", [[(14, 3), (29, 6)]; 2]);
    add("yard at the range's end", [[(14, 5), (29, 8)]; 2]);
    add("yard no junction", [[(14, 5), (29, 65_535)]; 2]);
}

/// A tree of so many levels, one yard of every kind at each of the first junctions; the lists hold no true distances.
pub fn deep_tree(version: u8, levels: u16) -> Tree {
    let mut regions = Vec::new();
    for first in 0..levels - 1 {
        let span = Stored::Span {
            least: 0,
            greatest: 0,
        };
        regions.push(deep_region(first, JUNCTIONS, 2, levels - first, span));
        let list = Stored::list(&[(0, first)]);
        regions.push(deep_region(first, first + 1, 0, 1, list));
    }
    let list = Stored::list(&[(0, levels - 1)]);
    regions.push(deep_region(levels - 1, JUNCTIONS, 0, 1, list));
    Tree {
        version,
        junctions: JUNCTIONS,
        yards: levels,
        m: 1,
        regions,
    }
}

/// A region with its landmark at its first junction.
fn deep_region(first: u16, after: u16, children: u8, yards: u16, stored: Stored) -> Region {
    let landmark = Landmark {
        junction: first,
        stored,
    };
    Region {
        first,
        after,
        children,
        yards,
        kinds: kinds::ALL,
        landmarks: vec![landmark],
    }
}
