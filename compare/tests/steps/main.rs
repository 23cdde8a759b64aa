//! Searches worked out by hand, step by step: the whole queue after each step.

mod follow;
mod keys;
mod kinds;

use compare::generate::damage::{false_root, sound_road, sound_tree, JUNCTIONS};
use compare::generate::district::chain;
use compare::kinds::ALL;
use compare::query;
use compare::refusal::WORK_WORDS;
use compare::search::Asked::{self, FirstK, Within};
use compare::search::{tested, Measuring, Search};
use compare::tree::{self, Landmark, Stored, Tree};
use follow::{follow, held, lines, one_leaf};

/// A search on the sound district: 16 junctions in a chain, 10 + low seconds each, so at
/// 0 10 21 33 46 60 75 91 108 126 145 165 186 208 231 255 seconds from junction 0.
/// Its leaves hold yards 1 and 2, 5 and 6, 14; its root's landmarks are 0 and 8.
fn sound(tree: &Tree, aggregate: u8, asked: Asked) -> Search {
    let query = query::write(aggregate, 2, 100, &[0, 7]);
    let books: [&[u8]; 3] = [&sound_road(), &tree::write(tree), &query];
    tested(asked, ALL, books, WORK_WORDS, 10).unwrap()
}

/// The sound tree.
fn tree_value() -> Tree {
    tree::read(&sound_tree(1), JUNCTIONS).unwrap()
}

#[test]
fn the_sound_tree() {
    let list = |junction, pairs: [(u32, u16); 2]| Landmark {
        junction,
        stored: Stored::list(&pairs),
    };
    let span = |junction, least, greatest| Landmark {
        junction,
        stored: Stored::Span { least, greatest },
    };
    let tree = tree_value();
    assert_eq!(
        tree.regions[0].landmarks,
        [span(0, 10, 231), span(8, 33, 123)]
    );
    let near = list(3, [(12, 2), (23, 1)]);
    assert_eq!(tree.regions[1].landmarks, [near.clone(), near]);
    let (first, last) = (list(4, [(14, 5), (29, 6)]), list(7, [(16, 6), (31, 5)]));
    assert_eq!(tree.regions[2].landmarks, [first, last]);
    assert_eq!(
        tree.regions[3].landmarks[1].stored,
        Stored::list(&[(45, 14)])
    );
}

/// The sum's steps up to the four yards of 91 seconds: yards 1, 2, 5 and 6 are 10 + 81, 21 + 70, 60 + 31 and 75 + 16
/// away, so that by the furthest crew yard 5 comes first, then 2, 6 and 1. Yard 14 is 231 + 140 away.
const BY_SUM: &str = "
        26 R0
        45 R1  76 R2  191 R3
        67 R1  76 R2  91 Y1  191 R3
        76 R2  91 Y1  91 Y2  191 R3
        76 R2  91 Y1  91 Y2  91 Y6  191 R3
        91 Y1  91 Y2  91 Y5  91 Y6  191 R3
        91 Y2  91 Y5  91 Y6  191 R3
        91 Y5  91 Y6  191 R3
        91 Y6  191 R3
        191 R3";

#[test]
fn by_sum() {
    let state = follow(&sound(&tree_value(), 0, FirstK), BY_SUM);
    assert_eq!(state.measured, [1, 2, 5, 6]);
    assert_eq!(held(&state), [(91, 60, 5), (91, 70, 2)]);
}

/// "The search is settled when the queue is empty or every queued key is above the seconds."
#[test]
fn by_sum_within() {
    let ask = |seconds| sound(&tree_value(), 0, Within(seconds));
    for (seconds, steps) in [(0, 0), (25, 0), (26, 1), (45, 2), (75, 3), (90, 5)] {
        let state = follow(&ask(seconds), &lines(BY_SUM, steps + 1));
        assert!(state.measured.is_empty() && state.held.is_empty());
    }
    let all_91 = [(91, 60, 5), (91, 70, 2), (91, 75, 6), (91, 81, 1)];
    for seconds in [91, 190] {
        let state = follow(&ask(seconds), BY_SUM);
        assert_eq!(state.measured, [1, 2, 5, 6]);
        assert_eq!(held(&state), all_91);
    }
    let further = format!("{BY_SUM}\n371 Y14");
    for seconds in [191, 370] {
        let state = follow(&ask(seconds), &further);
        assert_eq!(held(&state), all_91);
    }
    for seconds in [371, u32::MAX] {
        let state = follow(&ask(seconds), &format!("{further}\n-"));
        assert_eq!(state.measured, [1, 2, 5, 6, 14]);
        assert_eq!(held(&state)[..4], all_91);
        assert_eq!(held(&state)[4..], [(371, 231, 14)]);
    }
}

/// The maximum's steps up to yards 5 and 2.
const BY_MAXIMUM: &str = "
        16 R0
        35 R1  60 R2  141 R3
        46 R1  60 R2  81 Y1  141 R3
        60 R2  70 Y2  81 Y1  141 R3
        60 R2  70 Y2  75 Y6  81 Y1  141 R3
        60 Y5  70 Y2  75 Y6  81 Y1  141 R3
        70 Y2  75 Y6  81 Y1  141 R3
        75 Y6  81 Y1  141 R3";

#[test]
fn by_maximum() {
    let state = follow(&sound(&tree_value(), 1, FirstK), BY_MAXIMUM);
    assert_eq!(state.measured, [5, 2]);
    assert_eq!(held(&state), [(60, 60, 5), (70, 70, 2)]);
}

#[test]
fn by_maximum_within() {
    let ask = |seconds| sound(&tree_value(), 1, Within(seconds));
    let state = follow(&ask(74), BY_MAXIMUM);
    assert_eq!(held(&state), [(60, 60, 5), (70, 70, 2)]);
    let state = follow(&ask(75), &format!("{BY_MAXIMUM}\n81 Y1  141 R3"));
    assert_eq!(state.measured, [5, 2, 6]);
    assert_eq!(held(&state), [(60, 60, 5), (70, 70, 2), (75, 75, 6)]);
}

/// The root's least is false, the greatest u32: its key, 2 × 4,294,967,295 − 17, goes to all below it. Yard 1 is
/// measured first, and yard 2 comes before it.
#[test]
fn a_false_root() {
    let tree = tree::read(&false_root(u32::MAX), JUNCTIONS).unwrap();
    let queues = "
        K R0
        K R1  K R2  K R3
        K R1  K R2  K R3  K Y1
        K R2  K R3  K Y1  K Y2
        K R2  K R3  K Y1  K Y2  K Y6
        K R3  K Y1  K Y2  K Y5  K Y6
        K Y1  K Y2  K Y5  K Y6  K Y14
        K Y2  K Y5  K Y6  K Y14
        K Y5  K Y6  K Y14";
    let key = 2 * 4_294_967_295_u64 - 17;
    let queues = queues.replace('K', &key.to_string());
    let state = follow(&sound(&tree, 0, FirstK), &queues);
    assert_eq!(held(&state), [(91, 70, 2), (91, 81, 1)]);
    let state = follow(&sound(&tree, 0, Within(u32::MAX)), &lines(&queues, 1));
    assert!(state.held.is_empty());
}

/// The root's key is 2 × 2,147,483,708 − 17, which is 103 in 32 bits: no drive reaches it.
#[test]
fn a_root_above_32_bits() {
    let tree = tree::read(&false_root(2_147_483_708), JUNCTIONS).unwrap();
    for seconds in [103, u32::MAX] {
        let state = follow(&sound(&tree, 0, Within(seconds)), "4294967399 R0");
        assert!(state.held.is_empty());
    }
}

/// A search on net N with another list, crews 0 and 2 by sum.
fn n_asked(list: [(u32, u16); 3], k: u8, asked: Asked) -> Search {
    let query = query::write(0, k, 100, &[0, 2]);
    let books: [&[u8]; 3] = [&chain(&[2, 3, 4, 1]), &one_leaf(5, 0, &list), &query];
    tested(asked, ALL, books, WORK_WORDS, 128).unwrap()
}

/// The same for k yards.
fn n_search(list: [(u32, u16); 3], k: u8) -> Search {
    n_asked(list, k, FirstK)
}

/// Yard 1 is stored as far away, and left out.
#[test]
fn a_yard_left_out() {
    let list = [(9, 3), (10, 4), (67_042_305, 1)];
    let queues = "
        13 R0
        13 Y3  15 R0
        15 R0";
    for asked in [FirstK, Within(13), Within(14)] {
        let search = n_asked(list, 1, asked);
        assert_eq!(held(&follow(&search, queues)), [(13, 9, 3)]);
    }
}

/// A chain of three, seconds 1 and 1, the landmark in its middle: yard 2's bound is 0, and crew 0 is 2 away.
#[test]
fn a_yard_measured_and_not_held() {
    let tree = one_leaf(3, 1, &[(1, 0), (1, 2)]);
    let query = query::write(0, 1, 100, &[0]);
    let books: [&[u8]; 3] = [&chain(&[1, 1]), &tree, &query];
    let queues = "
        0 R0
        0 R0  0 Y0
        0 Y0  0 Y2
        0 Y2
        -";
    for (seconds, count) in [(0, 1), (1, 1), (2, 2)] {
        let search = tested(Within(seconds), ALL, books, WORK_WORDS, 4).unwrap();
        let state = follow(&search, queues);
        assert_eq!(state.measured, [0, 2]);
        assert_eq!(held(&state), [(0, 0, 0), (2, 2, 2)][..count]);
    }
}

/// A chain of seven, one second from each to the next, crew 0, the landmark in the middle: yards 0 and 6 have bound 0
/// and are measured before yard 3. Yard 0 needs no step, yard 6 six if no ceiling ends its way, yard 3 three.
#[test]
fn ways_end_at_the_ceiling() {
    let tree = one_leaf(7, 3, &[(0, 3), (3, 0), (3, 6)]);
    let queues = "
        0 R0
        0 R0  0 Y0
        0 Y0  0 Y6  3 R0
        0 Y6  3 R0
        3 R0
        3 Y3
        -";
    let (two, three) = (lines(queues, 5), lines(queues, 7));
    for (asked, k, queues, walked_on, whole) in [
        (FirstK, 1, &two, 1, 6),
        (FirstK, 2, &three, 6 + 3, 6 + 3),
        (Within(0), 1, &two, 1, 6),
        (Within(2), 1, &two, 3, 6),
        (Within(3), 1, &three, 4 + 3, 6 + 3),
        (Within(6), 1, &three, 6 + 3, 6 + 3),
    ] {
        let query = query::write(0, k, 100, &[0]);
        let books: [&[u8]; 3] = [&chain(&[1; 6]), &tree, &query];
        let search = tested(asked, ALL, books, WORK_WORDS, 6).unwrap();
        assert_eq!(follow(&search, queues).walked_on, walked_on, "{asked:?}");
        let search = search.by(Measuring::WaysWithoutCeiling);
        assert_eq!(follow(&search, queues).walked_on, whole, "{asked:?}");
    }
}

/// A chain with junctions at 0, 2, 4, 5 and 10 seconds, crews at its ends: yards 1, 2 and 3 are 2 + 8, 4 + 6 and 5 + 5
/// away, and are measured in turn. Yards 2 and 3 come in at a distance that equals the ceiling, each before those held.
#[test]
fn the_fairest_yard_measured_last() {
    let tree = one_leaf(5, 0, &[(2, 1), (4, 2), (5, 3)]);
    let queues = "
        7 R0
        10 R0  10 Y1
        10 R0  10 Y1  10 Y2
        10 Y1  10 Y2  10 Y3
        10 Y2  10 Y3
        10 Y3
        -";
    let all = [(10, 5, 3), (10, 6, 2), (10, 8, 1)];
    for (asked, k, count) in [
        (FirstK, 1, 1),
        (FirstK, 2, 2),
        (FirstK, 3, 3),
        (Within(10), 1, 3),
    ] {
        let query = query::write(0, k, 100, &[0, 4]);
        let books: [&[u8]; 3] = [&chain(&[2, 2, 1, 5]), &tree, &query];
        let search = tested(asked, ALL, books, WORK_WORDS, 6).unwrap();
        let state = follow(&search, queues);
        assert_eq!(state.measured, [1, 2, 3]);
        assert_eq!(held(&state), all[..count]);
    }
}

/// Yard 4 is stored as near: its f ties with yard 1's, its bound is still the sheet's.
#[test]
fn the_sheet_stays_true() {
    let search = n_search([(2, 1), (3, 4), (9, 3)], 2);
    let queues = "
        2 R0
        5 R0  5 Y1
        5 Y1  13 R0  15 Y4
        13 R0  15 Y4
        13 Y3  15 Y4
        15 Y4";
    let state = follow(&search, queues);
    assert_eq!(held(&state), [(5, 3, 1), (13, 9, 3)]);
}

/// Yards 3 and 4 are stored as further than they are: the list's difference is the greater.
#[test]
fn the_list_counts_too() {
    let search = n_search([(2, 1), (30, 3), (40, 4)], 2);
    let queues = "
        2 R0
        5 Y1  55 R0
        55 R0
        55 Y3  75 R0
        75 R0";
    let state = follow(&search, queues);
    assert_eq!(held(&state), [(5, 3, 1), (13, 9, 3)]);
}
