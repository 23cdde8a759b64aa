//! Searches for some kinds of yard, worked out by hand.

use compare::build::KINDS_AREA_BYTES;
use compare::generate::damage::{sound_query, sound_road, sound_tree};
use compare::generate::district::chain;
use compare::kinds::{self, ALL};
use compare::refusal::WORK_WORDS;
use compare::search::state::State;
use compare::search::Asked::{self, FirstK, Within};
use compare::search::{tested, Search};
use compare::tree::{Entry, Landmark, Region, Stored, Tree};
use compare::yard::{self, Yard};
use compare::{build, query, tree};

use crate::follow::{follow, held, lines};

/// The chain of six: junctions at 0, 1, 3, 6, 10 and 15 seconds from junction 0, each of them a yard. From crews at 0
/// and 3 they are 0 + 6, 1 + 5, 3 + 3, 6 + 0, 10 + 4 and 15 + 9 seconds away.
const SECONDS: [u16; 5] = [1, 2, 3, 4, 5];
/// The kinds of the six yards.
const KINDS: [u8; 6] = [1, 2, 1, 4, 2, 3];

/// The chain's tree with one landmark and leaves of at most two yards: region 1 has yard 0, region 2 yards 1 and 2,
/// region 3 yard 3, region 4 yards 4 and 5; each leaf's landmark is its first yard.
pub fn tree_of_six() -> Tree {
    built_six(2)
}

/// The chain's tree with one landmark and this leaf limit.
pub fn built_six(leaf_limit: u32) -> Tree {
    let yard = |(junction, &kinds): (usize, &u8)| Yard {
        junction: junction as u16,
        kinds,
    };
    let yards: Vec<Yard> = KINDS.iter().enumerate().map(yard).collect();
    let yard = yard::write_version(kinds::VERSION, &yards);
    let mut area = vec![0; KINDS_AREA_BYTES];
    let work = &mut [0; WORK_WORDS];
    let built = build(&chain(&SECONDS), &yard, 1, leaf_limit, work, &mut area);
    tree::read(&area[..built.length as usize], 6).unwrap()
}

/// A search of the chain for crews at 0 and 3 by the sum, with k 2.
pub fn six(tree: &Tree, wanted: u8, asked: Asked) -> Search {
    let query = query::write(0, 2, 100, &[0, 3]);
    let books: [&[u8]; 3] = [&chain(&SECONDS), &tree::write(tree), &query];
    tested(asked, wanted, books, WORK_WORDS, 12).unwrap()
}

/// The same for the first two yards, followed.
fn follow_six(tree: &Tree, wanted: u8, queues: &str) -> State {
    follow(&six(tree, wanted, FirstK), queues)
}

#[test]
fn the_tree_of_six() {
    let tree = tree_of_six();
    let of_regions: Vec<u8> = tree.regions.iter().map(|region| region.kinds).collect();
    assert_eq!(of_regions, [7, 1, 3, 4, 3]);
    let entry = |distance, yard, kinds| Entry {
        distance,
        yard,
        kinds,
    };
    let lists = [
        vec![entry(0, 0, 1)],
        vec![entry(0, 1, 2), entry(2, 2, 1)],
        vec![entry(0, 3, 4)],
        vec![entry(0, 4, 2), entry(5, 5, 3)],
    ];
    for (region, list) in tree.regions[1..].iter().zip(lists) {
        assert_eq!(region.landmarks[0].list(), list);
    }
}

/// Every yard: the four leaves' keys are 6, 3, 6 and 5. Leaf 2 leaves yard 2 (f 4) before yard 1 (f 6), leaf 4 yard 5
/// (f 6) before yard 4 (f 14). Of the four yards at 6 seconds yards 2 and 1 have the nearest furthest crews, at 3 and
/// 5.
#[test]
fn six_of_every_kind() {
    let queues = "
        0 R0
        3 R2  5 R4  6 R1  6 R3
        5 R4  6 R1  6 R2  6 R3  6 Y2
        6 R1  6 R2  6 R3  6 Y2  14 R4  24 Y5
        6 R2  6 R3  6 Y0  6 Y2  14 R4  24 Y5
        6 R3  6 Y0  6 Y1  6 Y2  14 R4  24 Y5
        6 Y0  6 Y1  6 Y2  6 Y3  14 R4  24 Y5
        6 Y1  6 Y2  6 Y3  14 R4  24 Y5
        6 Y2  6 Y3  14 R4  24 Y5
        6 Y3  14 R4  24 Y5
        14 R4  24 Y5";
    for wanted in [7, ALL] {
        let state = follow_six(&tree_of_six(), wanted, queues);
        assert_eq!(state.measured, [0, 1, 2, 3]);
        assert_eq!(held(&state), [(6, 3, 2), (6, 5, 1)]);
    }
}

/// Yards 0, 2 and 5: region 3 never enters the queue, and leaves 2 and 4 are taken once, for their one wanted yard.
#[test]
fn six_of_the_first_kind() {
    let queues = "
        0 R0
        3 R2  5 R4  6 R1
        5 R4  6 R1  6 Y2
        6 R1  6 Y2  24 Y5
        6 Y0  6 Y2  24 Y5
        6 Y2  24 Y5
        24 Y5";
    let state = follow_six(&tree_of_six(), 1, queues);
    assert_eq!(state.measured, [0, 2]);
    assert_eq!(held(&state), [(6, 3, 2), (6, 6, 0)]);
    let within = |seconds| follow(&six(&tree_of_six(), 1, Within(seconds)), queues);
    for seconds in [6, 23] {
        assert_eq!(held(&within(seconds)), [(6, 3, 2), (6, 6, 0)]);
    }
    let all = format!("{queues}\n-");
    let state = follow(&six(&tree_of_six(), 1, Within(24)), &all);
    assert_eq!(held(&state), [(6, 3, 2), (6, 6, 0), (24, 15, 5)]);
}

/// Yards 1, 4 and 5: leaf 2's bound is that of its whole list, leaf 4 has both of its yards.
#[test]
fn six_of_the_second_kind() {
    let queues = "
        0 R0
        3 R2  5 R4
        5 R4  6 Y1
        6 Y1  14 R4  24 Y5
        14 R4  24 Y5
        14 Y4  24 Y5
        24 Y5";
    let state = follow_six(&tree_of_six(), 2, queues);
    assert_eq!(state.measured, [1, 4]);
    assert_eq!(held(&state), [(6, 5, 1), (14, 10, 4)]);
    let drive = six(&tree_of_six(), 2, Within(13));
    let state = follow(&drive, &lines(queues, 5));
    assert_eq!(held(&state), [(6, 5, 1)]);
}

/// Yard 3 alone; and no yard at all: "such a root settles empty with 0 taken".
#[test]
fn six_of_rare_kinds() {
    let queues = "
        0 R0
        6 R3
        6 Y3
        -";
    for wanted in [4, 4 + 8, 4 + 128] {
        let state = follow_six(&tree_of_six(), wanted, queues);
        assert_eq!(held(&state), [(6, 6, 3)]);
    }
    for wanted in [8, 16, 128, 248] {
        for asked in [FirstK, Within(0), Within(u32::MAX)] {
            let state = follow(&six(&tree_of_six(), wanted, asked), "-");
            assert!(state.measured.is_empty() && state.held.is_empty());
        }
    }
}

/// Region 3 has a bit too many: it enters the queue, and "A leaf without any wanted yard queues nothing when taken."
#[test]
fn a_region_with_a_bit_too_many() {
    let mut tree = tree_of_six();
    tree.regions[3].kinds = 5;
    let queues = "
        0 R0
        3 R2  5 R4  6 R1  6 R3
        5 R4  6 R1  6 R3  6 Y2
        6 R1  6 R3  6 Y2  24 Y5
        6 R3  6 Y0  6 Y2  24 Y5
        6 Y0  6 Y2  24 Y5
        6 Y2  24 Y5
        24 Y5";
    let state = follow_six(&tree, 1, queues);
    assert_eq!(held(&state), [(6, 3, 2), (6, 6, 0)]);
}

/// A root with every bit, and a kind that no yard has: it is taken, and its children never enter.
#[test]
fn a_root_with_bits_too_many() {
    let mut tree = tree_of_six();
    tree.regions[0].kinds = ALL;
    let state = follow_six(&tree, 8, "0 R0\n-");
    assert!(state.measured.is_empty());
}

/// Region 1 lacks its yard's bit, and the yard is left out; a root that lacks it leaves out all.
#[test]
fn a_region_with_a_bit_too_few() {
    let mut tree = tree_of_six();
    tree.regions[1].kinds = 2;
    let queues = "
        0 R0
        3 R2  5 R4
        5 R4  6 Y2
        6 Y2  24 Y5
        24 Y5
        -";
    let state = follow_six(&tree, 1, queues);
    assert_eq!(held(&state), [(6, 3, 2), (24, 15, 5)]);
    tree.regions[0].kinds = 6;
    assert!(follow_six(&tree, 1, "-").held.is_empty());
}

/// The chain of six as one leaf with landmarks 0 and 5, and these kinds in its two lists, each yard's by its number.
pub fn leaf_of_six(kinds: [[u8; 6]; 2]) -> Tree {
    let lists = [
        [(0, 0), (1, 1), (3, 2), (6, 3), (10, 4), (15, 5)],
        [(0, 5), (5, 4), (9, 3), (12, 2), (14, 1), (15, 0)],
    ];
    let landmark = |junction, list: [(u32, u16); 6], kinds: [u8; 6]| {
        let entry = |(distance, yard)| Entry {
            distance,
            yard,
            kinds: kinds[usize::from(yard)],
        };
        let stored = Stored::List(list.map(entry).to_vec());
        Landmark { junction, stored }
    };
    let landmarks = vec![
        landmark(0, lists[0], kinds[0]),
        landmark(5, lists[1], kinds[1]),
    ];
    let root = Region {
        first: 0,
        after: 6,
        children: 0,
        yards: 6,
        kinds: 3,
        landmarks,
    };
    Tree {
        version: kinds::VERSION,
        junctions: 6,
        yards: 6,
        m: 2,
        regions: vec![root],
    }
}

/// The second landmark is picked; whatever its list says of kinds, the first list's kinds decide.
#[test]
fn the_first_list_decides() {
    let first = [2, 2, 1, 2, 1, 2];
    let queues = "
        0 R0
        6 Y2  14 R0
        14 R0
        14 Y4
        -";
    for second in [first, [1, 1, 2, 1, 2, 1], [1; 6], [2; 6], [ALL; 6]] {
        let state = follow_six(&leaf_of_six([first, second]), 1, queues);
        assert_eq!(held(&state), [(6, 3, 2), (14, 10, 4)]);
    }
}

/// "passes over its unwanted elements": by f yards 0 to 3 come first, all of 6, by their places in the list from 5,
/// which has yard 3 first; then yard 4, of 14, and yard 5, of 24.
#[test]
fn unwanted_elements_are_passed_over() {
    let every = "
        0 R0
        6 R0  6 Y3
        6 R0  6 Y2  6 Y3
        6 R0  6 Y1  6 Y2  6 Y3
        6 Y0  6 Y1  6 Y2  6 Y3  14 R0
        6 Y1  6 Y2  6 Y3  14 R0
        6 Y2  6 Y3  14 R0
        6 Y3  14 R0
        14 R0";
    let tree = leaf_of_six([[1; 6]; 2]);
    assert_eq!(follow_six(&tree, 1, every).measured, [0, 1, 2, 3]);
    let some = "
        0 R0
        6 R0  6 Y3
        6 Y0  6 Y3  24 R0
        6 Y3  24 R0
        24 R0";
    let kinds = [1, 2, 2, 1, 2, 1];
    let state = follow_six(&leaf_of_six([kinds; 2]), 1, some);
    assert_eq!(held(&state), [(6, 6, 0), (6, 6, 3)]);
}

/// A root with the wanted bit whose first list has none: it is taken, and queues nothing.
#[test]
fn a_leaf_without_any_wanted_yard() {
    let tree = leaf_of_six([[2; 6], [1; 6]]);
    assert!(follow_six(&tree, 1, "0 R0\n-").measured.is_empty());
}

/// The sound district's version 2 tree for crews 0 and 7 by the sum: yards 1, 2, 5, 6 and 14 of kinds 1, 2, 5, 2, 4,
/// and 10 + 81, 21 + 70, 60 + 31, 75 + 16 and 231 + 140 seconds away.
#[test]
fn the_sound_tree_with_kinds() {
    let follow_sound = |wanted: u8, queues: &str| {
        let (tree, query) = (sound_tree(kinds::VERSION), sound_query());
        let books: [&[u8]; 3] = [&sound_road(), &tree, &query];
        let search = tested(FirstK, wanted, books, WORK_WORDS, 10).unwrap();
        held(&follow(&search, queues))
    };
    let first = "
        26 R0
        45 R1  76 R2
        76 R2  91 Y1
        91 Y1  91 Y5
        91 Y5
        -";
    assert_eq!(follow_sound(1, first), [(91, 60, 5), (91, 81, 1)]);
    let second = first.replace("Y1", "Y2").replace("Y5", "Y6");
    assert_eq!(follow_sound(2, &second), [(91, 70, 2), (91, 75, 6)]);
    let third = "
        26 R0
        76 R2  191 R3
        91 Y5  191 R3
        191 R3
        371 Y14
        -";
    assert_eq!(follow_sound(4, third), [(91, 60, 5), (371, 231, 14)]);
    let first_or_third = "
        26 R0
        45 R1  76 R2  191 R3
        76 R2  91 Y1  191 R3
        91 Y1  91 Y5  191 R3
        91 Y5  191 R3
        191 R3";
    assert_eq!(follow_sound(5, first_or_third), [(91, 60, 5), (91, 81, 1)]);
    assert!(follow_sound(8, "-").is_empty());
}

/// A leaf of the chain of seven with its landmark in the middle: yards 3, 0 and 6, of the first kind but for one.
fn leaf_of_seven(unwanted: u16) -> Vec<u8> {
    let entry = |(distance, yard): (u32, u16)| Entry {
        distance,
        yard,
        kinds: if yard == unwanted { 2 } else { 1 },
    };
    let stored = Stored::List([(0, 3), (3, 0), (3, 6)].map(entry).to_vec());
    let landmark = Landmark {
        junction: 3,
        stored,
    };
    let root = Region {
        first: 0,
        after: 7,
        children: 0,
        yards: 3,
        kinds: 3,
        landmarks: vec![landmark],
    };
    tree::write(&Tree {
        version: kinds::VERSION,
        junctions: 7,
        yards: 3,
        m: 1,
        regions: vec![root],
    })
}

/// One second from each of the seven to the next, crew 0, k 1: without yard 0, yard 6 is measured first; without yard
/// 3, the leaf leaves the queue with yard 6; without yard 6, the leaf goes on to yard 3.
#[test]
fn seven_with_a_yard_unwanted() {
    let follow_seven = |unwanted: u16, queues: &str| {
        let query = query::write(0, 1, 100, &[0]);
        let books: [&[u8]; 3] = [&chain(&[1; 6]), &leaf_of_seven(unwanted), &query];
        let search = tested(FirstK, 1, books, WORK_WORDS, 6).unwrap();
        let state = follow(&search, queues);
        let held = held(&state);
        (state.measured, held)
    };
    let without_0 = "
        0 R0
        0 Y6  3 R0
        3 R0
        3 Y3
        -";
    assert_eq!(follow_seven(0, without_0), (vec![6, 3], vec![(3, 3, 3)]));
    let without_3 = "
        0 R0
        0 R0  0 Y0
        0 Y0  0 Y6
        0 Y6
        -";
    assert_eq!(follow_seven(3, without_3), (vec![0, 6], vec![(0, 0, 0)]));
    let without_6 = "
        0 R0
        0 Y0  3 R0
        3 R0";
    assert_eq!(follow_seven(6, without_6), (vec![0], vec![(0, 0, 0)]));
}
