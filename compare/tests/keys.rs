//! Keys without a run held against runs: every queued yard's on any tree, and exactly the measured yards on trees that
//! pass.

use std::collections::BTreeMap;

use compare::generate::call::{random_search, random_within, tied_search};
use compare::generate::damage::Call;
use compare::generate::Numbers;
use compare::kinds::ALL;
use compare::search::bound::region_bound;
use compare::search::keys::{greatest_worth, keys, keys_in_leaf, worth_measuring, Keyed};
use compare::search::state::{Item, State};
use compare::search::{run, run_seen, tested_books, Search};
use compare::{brute, check, Asked};

/// A search that is not refused, and whether its tree passes: of any district, or of one where many yards have the same
/// sum; the tree built, cut at random or false; for k yards or within a drive.
struct Random {
    search: Search,
    passes: bool,
}

impl Random {
    /// The next that is not refused.
    fn new(numbers: &mut Numbers) -> Self {
        let next = || Random::unless_refused(numbers);
        std::iter::repeat_with(next).flatten().next().unwrap()
    }

    /// Any search, if it is not refused.
    fn unless_refused(numbers: &mut Numbers) -> Option<Self> {
        let call = match numbers.between(0, 2) {
            0 => random_search(numbers, 40),
            1 => random_within(numbers, 40),
            _ => tied_search(numbers, 40),
        };
        let Call::Search {
            asked,
            wanted,
            road,
            tree,
            query,
            ..
        } = call
        else {
            unreachable!("it is a search");
        };
        let search = tested_books(asked, wanted, [&road, &tree, &query]).ok()?;
        let passes = check::passes(&road, &tree);
        Some(Random { search, passes })
    }
}

/// What was seen of the keys in runs.
#[derive(Clone, Copy, Debug, Default)]
struct Queued {
    /// Yards in the queues of all states.
    yards: u32,
    /// Yards whose leaf's first key is above their bound.
    by_first_key: u32,
    /// Those of them whose leaf's own bound is not above it.
    by_inner_region: u32,
}

impl Queued {
    /// A run of the search: each queued yard's key is the one without a run, and so it is with the first keys that
    /// leaves had in the queue.
    fn see(&mut self, search: &Search) {
        let keys = keys(search);
        let mut first_keys = BTreeMap::new();
        let mut see = |state: &State| {
            for &(key, item) in &state.queue {
                match item {
                    Item::Yard(yard) => {
                        assert!(keys.contains(&Keyed { key, yard }));
                        self.yards += 1;
                    }
                    Item::Region(number) => {
                        first_keys.entry(number).or_insert(key);
                    }
                }
            }
        };
        let last = run_seen(search, &mut see).state;
        see(&last);
        for (number, first_key) in first_keys {
            if search.tree.regions[number].is_leaf() {
                self.see_leaf(search, &keys, number, first_key);
            }
        }
    }

    /// The yards of a leaf that had this key when it was first queued.
    fn see_leaf(&mut self, search: &Search, keys: &[Keyed], number: usize, first_key: u64) {
        let leaf_bound = region_bound(search, number);
        let bounds = keys_in_leaf(search, number, 0);
        for (keyed, bound) in keys_in_leaf(search, number, first_key).iter().zip(bounds) {
            assert!(keys.contains(keyed));
            let shows = keyed.key > bound.key;
            self.by_first_key += u32::from(shows);
            self.by_inner_region += u32::from(shows && keyed.key > leaf_bound);
        }
    }
}

/// On any tree. On one that passes no region's bound is above that of a yard below it; on a false one it may be, and
/// then the first key shows in the yard's.
#[test]
fn every_queued_key() {
    let mut numbers = Numbers::new(61);
    let mut seen = [Queued::default(); 2];
    for _ in 0..8_000 {
        let Random { search, passes } = Random::new(&mut numbers);
        seen[usize::from(passes)].see(&search);
    }
    let [others, passing] = seen;
    assert!(passing.yards >= 100_000, "{seen:?}");
    assert_eq!((passing.by_first_key, passing.by_inner_region), (0, 0));
    assert!(others.yards >= 20_000, "{seen:?}");
    assert!(others.by_first_key >= 1_000, "{seen:?}");
    assert!(others.by_inner_region >= 500, "{seen:?}");
}

/// On any tree, settled or spent: of the wanted yards that can enter the queue the first by their keys are measured, in
/// this order.
#[test]
fn measured_in_order_of_keys() {
    let mut numbers = Numbers::new(62);
    let (mut kept_out, mut others) = (0, 0);
    for _ in 0..8_000 {
        let Random { search, passes } = Random::new(&mut numbers);
        let mut yards: Vec<u16> = keys(&search).iter().map(|keyed| keyed.yard).collect();
        let wanted = yards.len();
        let entering = brute::entering_yards(&search.tree, search.wanted);
        yards.retain(|yard| entering.contains(yard));
        let measured = run(&search).state.measured;
        assert_eq!(measured, yards[..measured.len()]);
        kept_out += u32::from(yards.len() < wanted);
        others += u32::from(!passes);
    }
    assert!(kept_out >= 50 && others >= 1_000, "{kept_out} {others}");
}

/// Other wanted kinds change which yards have keys, not the keys; nor do k, the limit or a drive. On a tree that passes
/// a key is the yard's bound, here from all distances.
#[test]
fn keys_follow_from_the_books() {
    let mut numbers = Numbers::new(63);
    for _ in 0..4_000 {
        let Random { mut search, passes } = Random::new(&mut numbers);
        let keyed = keys(&search);
        let wanted = brute::wanted_yards(&search.tree, search.wanted);
        if passes {
            let all = brute::all_distances(&search.road);
            let bound = |&yard| Keyed {
                key: brute::yard_bound(&all, &search.tree, &search.query, yard),
                yard,
            };
            let mut bounds: Vec<Keyed> = wanted.iter().map(bound).collect();
            bounds.sort_unstable();
            assert_eq!(keyed, bounds);
        }
        search.wanted = ALL;
        search.asked = Asked::Within(0);
        (search.query.k, search.query.limit) = (64, 0);
        let mut every = keys(&search);
        assert_eq!(every.len(), usize::from(search.tree.yards));
        every.retain(|keyed| wanted.contains(&keyed.yard));
        assert_eq!(keyed, every);
    }
}

/// What was seen of settled searches on trees that pass.
#[derive(Clone, Copy, Debug, Default)]
struct Settled {
    /// The list is short of k.
    short: u32,
    /// Some wanted yard is not measured.
    left: u32,
    /// Some measured yard is not listed.
    unlisted: u32,
    /// Some key equals the last listed distance of a full list, or the seconds.
    equal: u32,
}

impl Settled {
    /// Those measured are exactly the yards worth it, each once, by brute force's list.
    fn see(&mut self, search: &Search, measured: &[u16]) {
        let (road, tree, query) = (&search.road, &search.tree, &search.query);
        let list = brute::list(search.asked, search.wanted, road, tree, query);
        let (keys, greatest) = (keys(search), greatest_worth(search, &list));
        let worth = worth_measuring(&keys, greatest);
        let mut yards: Vec<u16> = worth.iter().map(|keyed| keyed.yard).collect();
        let mut measured = measured.to_vec();
        yards.sort_unstable();
        measured.sort_unstable();
        assert_eq!(measured, yards);
        self.short += u32::from(greatest.is_none());
        self.left += u32::from(yards.len() < keys.len());
        self.unlisted += u32::from(list.len() < yards.len());
        let equal = worth.iter().any(|keyed| Some(keyed.key) == greatest);
        self.equal += u32::from(equal);
    }
}

/// "For a settled search for k yards on a tree that passes, promise that the measured yards are exactly the wanted
/// yards whose key is not above the last listed distance, or all wanted yards when the list is short of k"; for a drive
/// search the seconds are in the distance's place.
#[test]
fn exactly_the_yards_worth_measuring() {
    let mut numbers = Numbers::new(64);
    let mut seen = [Settled::default(); 2];
    for _ in 0..12_000 {
        let Random { search, passes } = Random::new(&mut numbers);
        let outcome = run(&search);
        if passes && outcome.settled {
            let seen = &mut seen[usize::from(search.asked != Asked::FirstK)];
            seen.see(&search, &outcome.state.measured);
        }
    }
    let [first_k, drives] = seen;
    assert!(first_k.short >= 500, "{seen:?}");
    for seen in [first_k, drives] {
        let least = seen.left.min(seen.unlisted).min(seen.equal);
        assert!(least >= 500, "{seen:?}");
    }
}
