//! All of the paper's examples, starred or not.

use compare::build::AREA_BYTES;
use compare::generate::district::chain;
use compare::kinds;
use compare::list::list;
use compare::query::Aggregate;
use compare::refusal::WORK_WORDS;
use compare::search::bound::{crew_bound, f};
use compare::{build, check, query, road, search, within, yard, Built, Found};

/// "junctions 0 to 4 in a chain, seconds 2, 3, 4, 1".
fn n_road() -> Vec<u8> {
    chain(&[2, 3, 4, 1])
}

/// The tree with m 1 and leaf limit 3.
fn tree(road: &[u8], yards: &[u16]) -> Vec<u8> {
    let mut area = vec![0; AREA_BYTES];
    let work = &mut [0; WORK_WORDS];
    let built = build(road, &yard::write(yards), 1, 3, work, &mut area);
    assert_eq!(built.refusal, 0);
    area.truncate(built.length as usize);
    area
}

/// What a search returns and lists.
fn listed(road: &[u8], yards: &[u16], query: &[u8]) -> (Found, Vec<(u32, u32)>) {
    let mut results = [0; 128];
    let (tree, work) = (tree(road, yards), &mut [9; WORK_WORDS]);
    let found = search(road, &tree, query, kinds::ALL, work, &mut results);
    let pairs = results.chunks(2).take(found.listed as usize);
    (found, pairs.map(|words| (words[0], words[1])).collect())
}

/// What a search on N returns and lists.
fn n_listed(query: &[u8]) -> (Found, Vec<(u32, u32)>) {
    listed(&n_road(), &[1, 3, 4], query)
}

/// What the list program prints on N.
fn n_printed(query: &[u8]) -> String {
    let road = n_road();
    let tree = tree(&road, &[1, 3, 4]);
    list(&[&road, &tree, query].concat())
}

#[test]
fn tree_of_n() {
    let hexadecimal = "00000023 01 0005 0001 0003 01 0000 0005 00 0003 0000 00000002 0001 00000009 0003 0000000a 0004";
    let digits: String = hexadecimal.split(' ').collect();
    let byte = |place| u8::from_str_radix(&digits[place..place + 2], 16).unwrap();
    let bytes: Vec<u8> = (0..digits.len()).step_by(2).map(byte).collect();
    assert_eq!(tree(&n_road(), &[1, 3, 4]), bytes);
    let yards = yard::write(&[1, 3, 4]);
    assert_eq!(check(&n_road(), &yards, &bytes, &mut [0; WORK_WORDS]), 0);
    let refused = build(&n_road(), &yards, 1, 3, &mut [0; WORK_WORDS], &mut []);
    assert_eq!(
        refused,
        Built {
            refusal: 12,
            length: 0
        }
    );
}

#[test]
fn the_listing() {
    let query = query::write(0, 2, 4, &[0, 2]);
    assert_eq!(
        n_printed(&query),
        "yard seconds\n1 5\n3 13\nmeasured 2 taken 4\n"
    );
    assert_eq!(n_listed(&query).1, [(1, 5), (3, 13)]);
}

#[test]
fn limit_3_is_spent() {
    let query = query::write(0, 2, 3, &[0, 2]);
    assert_eq!(n_printed(&query), "spent measured 1 taken 3\n");
    let (found, listed) = n_listed(&query);
    assert_eq!((found.refusal, found.settled, found.listed), (0, 0, 0));
    assert!(listed.is_empty());
}

#[test]
fn limit_0_is_spent() {
    let query = query::write(0, 2, 0, &[0, 2]);
    assert_eq!(n_printed(&query), "spent measured 0 taken 0\n");
}

#[test]
fn a_refusal_is_printed() {
    assert_eq!(n_printed(&query::write(0, 0, 4, &[0, 2])), "refused 11\n");
    assert_eq!(n_printed(&[]), "refused 1\n");
    assert_eq!(list(&[]), "refused 1\n");
    assert_eq!(list(&[0, 0, 0]), "refused 1\n");
    assert_eq!(list(&[255; 9]), "refused 1\n");
    assert_eq!(list(&n_road()), "refused 1\n");
}

#[test]
fn maximum_k_1() {
    assert_eq!(n_listed(&query::write(1, 1, 6, &[0, 2])).1, [(1, 3)]);
}

#[test]
fn two_crews_at_one_junction() {
    assert_eq!(n_listed(&query::write(0, 1, 6, &[0, 0])).1, [(1, 4)]);
}

#[test]
fn k_64_lists_three_yards() {
    let (found, listed) = n_listed(&query::write(0, 64, 6, &[0, 2]));
    assert_eq!((found.settled, found.listed), (1, 3));
    assert_eq!(listed, [(1, 5), (3, 13), (4, 15)]);
}

/// Request 1 on N: the aggregates are 5, 13 and 15, whatever k is.
#[test]
fn within_a_drive() {
    let (road, tree) = (n_road(), tree(&n_road(), &[1, 3, 4]));
    let all = [1, 5, 3, 13, 4, 15];
    for (seconds, listed) in [
        (0, 0),
        (4, 0),
        (5, 1),
        (12, 1),
        (13, 2),
        (14, 2),
        (15, 3),
        (u32::MAX, 3),
    ] {
        for k in [1, 64] {
            let query = query::write(0, k, 6, &[0, 2]);
            let mut results = [9; 7];
            let work = &mut [9; WORK_WORDS];
            let found = within(
                &road,
                &tree,
                &query,
                kinds::ALL,
                seconds,
                work,
                &mut results,
            );
            assert_eq!((found.refusal, found.settled), (0, 1));
            assert_eq!(found.listed, listed, "{seconds} seconds");
            let words = 2 * listed as usize;
            assert_eq!(results[..words], all[..words]);
            assert!(results[words..].iter().all(|&word| word == 9));
        }
    }
}

#[test]
fn one_junction() {
    let (found, listed) = listed(&chain(&[]), &[0], &query::write(0, 2, 6, &[0]));
    assert_eq!((found.taken, found.measured), (2, 1));
    assert_eq!(listed, [(0, 0)]);
}

#[test]
fn crew_bounds() {
    for ub in 12..40 {
        for a in 0..=9 {
            assert_eq!(crew_bound(12, ub, a, 9), 3);
        }
    }
    for lb in 0..=4 {
        for b in 9..40 {
            assert_eq!(crew_bound(lb, 4, 9, b), 5);
        }
    }
    assert_eq!(crew_bound(5, 20, 9, 12), 0);
}

#[test]
fn f_of_a_list() {
    let values = [5, 5, 10];
    assert_eq!(f(Aggregate::Sum, &values, 4), 8);
    assert_eq!(f(Aggregate::Sum, &values, 7), 7);
}

#[test]
fn a_tie_goes_to_the_lower_number() {
    for aggregate in [0, 1] {
        let query = query::write(aggregate, 1, 6, &[1]);
        assert_eq!(listed(&chain(&[1, 1]), &[0, 2], &query).1, [(0, 1)]);
    }
}

#[test]
fn seconds() {
    assert_eq!(road::read(&chain(&[0])).err(), Some(5));
    assert!(road::read(&chain(&[65_535])).is_ok());
    assert_eq!(
        list(&[chain(&[0]), tree(&n_road(), &[1])].concat()),
        "refused 5\n"
    );
}

#[test]
fn junctions() {
    assert!(road::read(&chain(&[1; 1_023])).is_ok());
    assert_eq!(road::read(&chain(&[1; 1_024])).err(), Some(3));
    assert_eq!(road::read(&road::write(0, &[])).err(), Some(3));
    assert_eq!(road::read(&road::write(2, &[])).err(), Some(6));
}

#[test]
fn crews() {
    assert_eq!(n_listed(&query::write(0, 2, 6, &[4; 16])).0.refusal, 0);
    assert_eq!(n_listed(&query::write(0, 2, 6, &[4; 17])).0.refusal, 10);
}

#[test]
fn the_furthest_distance() {
    let (found, listed) = listed(
        &chain(&[65_535; 1_023]),
        &[1_023],
        &query::write(0, 1, 6, &[0; 16]),
    );
    assert_eq!(found.settled, 1);
    assert_eq!(listed, [(1_023, 16 * 67_042_305)]);
}
