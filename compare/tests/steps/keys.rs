//! Yards' keys worked out by hand, without a run, and the yards worth measuring by them.

use compare::generate::damage::{false_root, JUNCTIONS};
use compare::generate::district::chain;
use compare::kinds::ALL;
use compare::search::keys::{greatest_worth, keys, worth_measuring, Keyed};
use compare::search::Asked::{FirstK, Within};
use compare::search::{run, tested_books, Search};
use compare::tree::{Stored, Tree};
use compare::{brute, query, tree};

use crate::follow::one_leaf;
use crate::kinds::{built_six, leaf_of_six, six, tree_of_six};
use crate::{n_search, sound, tree_value};

/// The wanted yards with their keys, in order of these.
fn keys_of(search: &Search) -> Vec<(u16, u64)> {
    let pair = |keyed: &Keyed| (keyed.yard, keyed.key);
    keys(search).iter().map(pair).collect()
}

/// How many yards are worth measuring on a tree that passes; the settled run has measured these, in order of the keys.
fn measured(search: &Search) -> usize {
    let (road, tree, query) = (&search.road, &search.tree, &search.query);
    let list = brute::list(search.asked, search.wanted, road, tree, query);
    let keys = keys(search);
    let worth = worth_measuring(&keys, greatest_worth(search, &list));
    let yards: Vec<u16> = worth.iter().map(|keyed| keyed.yard).collect();
    assert_eq!(run(search).state.measured, yards);
    yards.len()
}

/// The same for each k from 1 on.
fn measured_by_k(mut search: Search, most: usize) -> Vec<usize> {
    let ks = 1..=most;
    ks.map(|k| {
        search.query.k = k;
        measured(&search)
    })
    .collect()
}

/// The sound district for crews 0 and 7: by the sheet's landmark 0 the bounds of yards 1, 2, 5, 6 and 14 are their true
/// sums, 10 + 81, 21 + 70, 60 + 31, 75 + 16 and 231 + 140. The leaves' first keys, 45, 76 and 191, are less. The first
/// four have the last listed distance as their key, and are all measured whichever of them are listed.
#[test]
fn by_sum() {
    let ask = |asked| sound(&tree_value(), 0, asked);
    let expected = [(1, 91), (2, 91), (5, 91), (6, 91), (14, 371)];
    assert_eq!(keys_of(&ask(FirstK)), expected);
    assert_eq!(measured_by_k(ask(FirstK), 6), [4, 4, 4, 4, 5, 5]);
    for (seconds, count) in [(0, 0), (90, 0), (91, 4), (370, 4), (371, 5), (u32::MAX, 5)] {
        assert_eq!(keys_of(&ask(Within(seconds))), expected);
        assert_eq!(measured(&ask(Within(seconds))), count, "{seconds}");
    }
}

/// By the maximum each k's last listed distance is one yard's key, and that yard is measured.
#[test]
fn by_maximum() {
    let ask = |asked| sound(&tree_value(), 1, asked);
    let expected = [(5, 60), (2, 70), (6, 75), (1, 81), (14, 231)];
    assert_eq!(keys_of(&ask(FirstK)), expected);
    assert_eq!(measured_by_k(ask(FirstK), 7), [1, 2, 3, 4, 5, 5, 5]);
    for (seconds, count) in [(59, 0), (60, 1), (74, 2), (75, 3), (230, 4), (231, 5)] {
        assert_eq!(measured(&ask(Within(seconds))), count, "{seconds}");
    }
}

/// A chain of seven, one second from each to the next, crew 0, the landmark in the middle: yards 0, 3 and 6 are 0, 3
/// and 6 seconds away, and their keys are |3 − 3|, |3 − 0| and |3 − 3|. Yard 6 is measured for k 1, where it isn't
/// listed; for k 2 the last listed distance, 3, is yard 3's key.
#[test]
fn keys_below_distances() {
    let tree = one_leaf(7, 3, &[(0, 3), (3, 0), (3, 6)]);
    let query = query::write(0, 1, 100, &[0]);
    let books: [&[u8]; 3] = [&chain(&[1; 6]), &tree, &query];
    let ask = |asked| tested_books(asked, ALL, books).unwrap();
    assert_eq!(keys_of(&ask(FirstK)), [(0, 0), (6, 0), (3, 3)]);
    assert_eq!(measured_by_k(ask(FirstK), 4), [2, 3, 3, 3]);
    for (seconds, count) in [(0, 2), (2, 2), (3, 3), (6, 3)] {
        assert_eq!(measured(&ask(Within(seconds))), count, "{seconds}");
    }
}

/// The chain of six with a leaf for each yard, crews 0 and 3 by the sum: region 6 has the leaves of yards 4 and 5 below
/// it and its landmark at 4. Its true least and greatest, 0 and 5, are replaced by these.
fn inner_region_of_six(least: u32, greatest: u32) -> Tree {
    let mut tree = built_six(1);
    let children: Vec<u8> = tree.regions.iter().map(|region| region.children).collect();
    assert_eq!(children, [4, 0, 2, 0, 0, 0, 2, 0, 0]);
    let landmark = &mut tree.regions[6].landmarks[0];
    assert_eq!(
        (landmark.junction, landmark.least_and_greatest()),
        (4, (0, 5))
    );
    landmark.stored = Stored::Span { least, greatest };
    tree
}

/// The leaves of yards 4 and 5 have bounds of their own, 14 and 24, as have the yards. With a false least of 24 region
/// 6's is (24 − 10) + (24 − 16) = 22, which is above yard 4's alone; with 40 it is 30 + 24 = 54, above both.
#[test]
fn a_bound_on_the_way() {
    for (least, greatest, fourth, fifth) in [(0, 5, 14, 24), (24, 45, 22, 24), (40, 45, 54, 54)] {
        let search = six(&inner_region_of_six(least, greatest), ALL, FirstK);
        let expected = [(0, 6), (1, 6), (2, 6), (3, 6), (4, fourth), (5, fifth)];
        assert_eq!(keys_of(&search), expected);
    }
    let search = six(&inner_region_of_six(0, 5), ALL, FirstK);
    assert_eq!(measured_by_k(search, 7), [4, 4, 4, 4, 5, 6, 6]);
}

/// The root's bound goes to every yard, above 32 bits too: 2 × 4,294,967,295 − 17.
#[test]
fn a_false_root_gives_one_key() {
    let tree = tree::read(&false_root(u32::MAX), JUNCTIONS).unwrap();
    let key = 2 * 4_294_967_295_u64 - 17;
    let expected = [1, 2, 5, 6, 14].map(|yard| (yard, key));
    assert_eq!(keys_of(&sound(&tree, 0, FirstK)), expected);
}

/// Net N for crews 0 and 2 with false lists. Stored as far away, yard 1 has 67,042,305 + 67,042,300; stored as near,
/// yard 4 still has the sheet's 10 + 5; stored further than they are, yards 3 and 4 have 30 + 25 and 40 + 35.
#[test]
fn the_list_and_the_sheet() {
    let of_list = |list| keys_of(&n_search(list, 1));
    let far = of_list([(9, 3), (10, 4), (67_042_305, 1)]);
    assert_eq!(far, [(3, 13), (4, 15), (1, 134_084_605)]);
    let near = of_list([(2, 1), (3, 4), (9, 3)]);
    assert_eq!(near, [(1, 5), (3, 13), (4, 15)]);
    let further = of_list([(2, 1), (30, 3), (40, 4)]);
    assert_eq!(further, [(1, 5), (3, 55), (4, 75)]);
}

/// Wanted yards alone have keys. Yard 0's region lacks its bit in a false tree: the yard has a key, and is not
/// measured.
#[test]
fn keys_of_kinds() {
    let mut tree = tree_of_six();
    for (wanted, expected) in [
        (1, vec![(0, 6), (2, 6), (5, 24)]),
        (2, vec![(1, 6), (4, 14), (5, 24)]),
        (4, vec![(3, 6)]),
        (8, vec![]),
    ] {
        assert_eq!(keys_of(&six(&tree, wanted, FirstK)), expected);
    }
    assert_eq!(measured_by_k(six(&tree, 1, FirstK), 4), [2, 2, 3, 3]);
    assert_eq!(measured_by_k(six(&tree, 4, FirstK), 2), [1, 1]);
    assert_eq!(measured_by_k(six(&tree, 8, FirstK), 2), [0, 0]);
    tree.regions[1].kinds = 2;
    let search = six(&tree, 1, FirstK);
    assert_eq!(keys_of(&search), [(0, 6), (2, 6), (5, 24)]);
    assert_eq!(run(&search).state.measured, [2, 5]);
}

/// The second landmark is picked, and which yards are wanted is the first list's word. With 16 for 12 as yard 2's
/// distance in the picked list, crew 3's |9 − 16| is above the sheet's 3, and crew 0's |15 − 16| is not.
#[test]
fn the_picked_list() {
    let mut tree = leaf_of_six([[2, 2, 1, 2, 1, 2], [1, 1, 2, 1, 2, 1]]);
    assert_eq!(keys_of(&six(&tree, 1, FirstK)), [(2, 6), (4, 14)]);
    if let Stored::List(list) = &mut tree.regions[0].landmarks[1].stored {
        let mut second = list.remove(3);
        second.distance = 16;
        list.push(second);
    }
    assert_eq!(keys_of(&six(&tree, 1, FirstK)), [(2, 10), (4, 14)]);
}
