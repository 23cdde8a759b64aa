//! Yards with the same sum, by the proved calls and the plain ones: each answer is worked out by hand.

use compare::build::AREA_BYTES;
use compare::generate::ties::{ties, Tie};
use compare::kinds::ALL;
use compare::refusal::WORK_WORDS;
use compare::{build, Found};
use proved::alike::{self, Areas};

/// The words of the result area.
const RESULTS: usize = 130;

/// The tree of a tie's books, which all finders build.
fn built(tie: &Tie, m: u32, leaf_limit: u32) -> Vec<u8> {
    let (road, yard) = (tie.road(), tie.yard());
    let (mut work, mut area) = (vec![7; WORK_WORDS], vec![7; AREA_BYTES]);
    alike::build([&road, &yard], [m, leaf_limit], &work, &area);
    let built = build(&road, &yard, m, leaf_limit, &mut work, &mut area);
    assert_eq!(built.refusal, 0);
    area.truncate(built.length as usize);
    area
}

/// What the search answers with this limit, and the result area after it, which had 7 in each word.
fn answer(tie: &Tie, tree: &[u8], limit: u32) -> (Found, Vec<u32>) {
    let mut areas = Areas::new(&[7; WORK_WORDS], &[7; RESULTS]);
    let books: [&[u8]; 3] = [&tie.road(), tree, &tie.query(limit)];
    let found = areas.ask(tie.asked, ALL, books);
    (found, areas.results().to_vec())
}

/// On the tree of one leaf: a limit that settles, exactly so or by far, gives the list; each lower one is spent, and
/// writes nothing.
#[test]
fn at_each_step_limit() {
    for tie in ties() {
        let tree = built(&tie, 1, 256);
        let [taken, measured] = tie.steps;
        for limit in [taken, taken + 1, u32::MAX] {
            let (found, results) = answer(&tie, &tree, limit);
            let counts = [found.settled, found.taken, found.measured];
            assert_eq!(counts, [1, taken, measured], "{tie:?}");
            assert_eq!(results, tie.results(RESULTS), "{tie:?}");
        }
        for limit in 0..taken {
            let (found, results) = answer(&tie, &tree, limit);
            let counts = [found.settled, found.listed, found.taken];
            assert_eq!(counts, [0, 0, limit], "{tie:?}");
            assert_eq!(results, [7; RESULTS], "{tie:?}");
        }
    }
}

/// Other trees change steps, not lists.
#[test]
fn on_every_tree() {
    for tie in ties() {
        for (m, leaf_limit) in [(1, 1), (1, 2), (2, 1), (3, 2), (4, 3), (4, 256)] {
            let tree = built(&tie, m, leaf_limit);
            let (_, results) = answer(&tie, &tree, u32::MAX);
            assert_eq!(results, tie.results(RESULTS), "{tie:?}");
        }
    }
}
