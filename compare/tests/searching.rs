//! The search against brute force, and demand 3 about lists of searches.

use std::collections::BTreeSet;

use compare::build::KINDS_AREA_BYTES;
use compare::generate::call::seconds;
use compare::generate::damage::random_damage;
use compare::generate::district::{district, false_tree, query_book, random_tree, wanted};
use compare::generate::{standard, Numbers};
use compare::kinds::ALL;
use compare::query::{self, Query};
use compare::refusal::WORK_WORDS;
use compare::road::RoadBook;
use compare::search::keys::greatest_worth;
use compare::search::state::{Held, Item, State};
use compare::search::{run, run_seen, tested, Search};
use compare::tree::{Region, Tree};
use compare::{ask, ask_by, brute, build, check, road, search, tree, within};
use compare::{Asked, Found, Measuring};

/// The three books of a search, what it is asked for, and the wanted kinds.
struct Books {
    asked: Asked,
    wanted: u8,
    road: Vec<u8>,
    tree: Vec<u8>,
    query: Vec<u8>,
}

impl Books {
    fn all(&self) -> [&[u8]; 3] {
        [&self.road, &self.tree, &self.query]
    }

    /// Makes the search.
    fn ask(&self, work: &mut [u32], results: &mut [u32]) -> Found {
        ask(self.asked, self.wanted, self.all(), work, results)
    }

    /// The search, which is not refused.
    fn tested(&self) -> Search {
        tested(self.asked, self.wanted, self.all(), WORK_WORDS, 512).unwrap()
    }

    /// The books read; they must pass.
    fn read(&self) -> (RoadBook, Tree, Query) {
        let road = road::read(&self.road).unwrap();
        let tree = tree::read(&self.tree, road.junctions).unwrap();
        let query = query::read(&self.query, road.junctions).unwrap();
        (road, tree, query)
    }
}

/// A district's books; the tree is built, or cut at random, or false.
fn random_books(numbers: &mut Numbers, most: u16) -> Books {
    let d = district(numbers, most);
    let roads = road::read(&d.road).unwrap();
    let tree = match numbers.between(0, 3) {
        0 => tree::read(&built(numbers, &d.road, &d.yard), d.junctions).unwrap(),
        1 => {
            let tree = random_tree(numbers, &roads, &d.book);
            false_tree(numbers, &tree)
        }
        _ => random_tree(numbers, &roads, &d.book),
    };
    let query = query_book(numbers, d.junctions);
    let asked = match numbers.between(0, 1) {
        0 => Asked::FirstK,
        _ => Asked::Within(seconds(numbers, &roads, &d.yards, &query)),
    };
    Books {
        asked,
        wanted: wanted(numbers).max(1),
        query,
        tree: tree::write(&tree),
        road: d.road,
    }
}

/// The tree that build gives for some m and leaf limit.
fn built(numbers: &mut Numbers, road: &[u8], yard: &[u8]) -> Vec<u8> {
    let mut area = vec![0; KINDS_AREA_BYTES];
    let (m, limit) = (numbers.between(1, 4) as u32, numbers.between(1, 6) as u32);
    let built = build(road, yard, m, limit, &mut [0; WORK_WORDS], &mut area);
    assert_eq!(built.refusal, 0);
    area.truncate(built.length as usize);
    area
}

/// The listed (distance, yard) pairs.
fn listed(found: &Found, results: &[u32]) -> Vec<(u64, u16)> {
    let pairs = results.chunks_exact(2).take(found.listed as usize);
    pairs
        .map(|words| (u64::from(words[1]), words[0] as u16))
        .collect()
}

/// "inner regions plus twice the yards", of which those "now concern wanted yards". On a tree that check refuses by 9 a
/// leaf may be taken once for no wanted yard.
fn settling_limit(tree: &Tree, wanted: u8, passes: bool) -> u64 {
    let steps = |region: &Region| match (region.is_leaf(), passes) {
        (false, _) => 1,
        (true, true) => region.wanted_yards(wanted).len() as u64,
        (true, false) => region.wanted_yards(wanted).len().max(1) as u64,
    };
    let regions: u64 = tree.regions.iter().map(steps).sum();
    regions + brute::wanted_yards(tree, wanted).len() as u64
}

/// Demand 3's first three clauses for one search that was not refused, about the wanted yards.
fn assert_search(books: &Books, found: &Found, list: &[(u64, u16)]) {
    let (road, tree, query) = books.read();
    let all = brute::all_distances(&road);
    let yards = brute::wanted_yards(&tree, books.wanted);
    let passes = check::passes(&books.road, &books.tree);
    if u64::from(query.limit) >= settling_limit(&tree, books.wanted, passes) {
        assert_eq!(found.settled, 1);
    }
    let spent_all = found.settled == 1 || found.taken == query.limit;
    assert!(spent_all && found.taken <= query.limit);
    let entering = brute::entering_yards(&tree, books.wanted);
    assert!(entering.iter().all(|yard| yards.contains(yard)));
    assert_measured(books, &entering, found);
    if passes {
        assert_eq!(entering.len(), yards.len());
        assert_bounds(books, &all, list);
    }
    match (found.settled, passes) {
        (0, _) => assert!(list.is_empty()),
        (_, true) => assert_eq!(list, brute::listed(books.asked, &all, &yards, &query)),
        (_, false) => assert_true_list(books, &all, &entering, list),
    }
}

/// "Regions and yards without a wanted bit never enter the queue": only yards that can enter are measured, each once.
fn assert_measured(books: &Books, entering: &[u16], found: &Found) {
    let measured = run(&books.tested()).state.measured;
    let distinct: BTreeSet<u16> = measured.iter().copied().collect();
    assert_eq!(distinct.len(), measured.len());
    assert_eq!(found.measured as usize, measured.len());
    assert!(distinct.iter().all(|yard| entering.contains(yard)));
}

/// "none of these measured a yard whose bound exceeds the last listed distance of a full list"; "no yard whose bound
/// exceeds the seconds is measured", in a spent search neither.
fn assert_bounds(books: &Books, all: &[Vec<u64>], list: &[(u64, u16)]) {
    let search = books.tested();
    let most = greatest_worth(&search, list).unwrap_or(u64::MAX);
    for yard in run(&search).state.measured {
        assert!(brute::yard_bound(all, &search.tree, &search.query, yard) <= most);
    }
}

/// Whether all of a list stand in another, each after the one before it.
fn in_turn(list: &[(u64, u16)], all: &[(u64, u16)]) -> bool {
    let mut all = all.iter();
    list.iter().all(|listed| all.any(|one| one == listed))
}

/// "with true distances, distinct yards and yard order, but a yard may be left out": all listed can enter the queue,
/// and in a drive search none is above the seconds.
fn assert_true_list(books: &Books, all: &[Vec<u64>], entering: &[u16], list: &[(u64, u16)]) {
    let (_, _, query) = books.read();
    let ranked = brute::ranked(all, entering, &query);
    match books.asked {
        Asked::FirstK => assert_eq!(list.len(), query.k.min(entering.len())),
        Asked::Within(seconds) => assert!(list.iter().all(|&(d, _)| d <= u64::from(seconds))),
    }
    assert!(in_turn(list, &ranked));
}

#[test]
fn search_by_brute_force() {
    let mut numbers = Numbers::new(5);
    let mut settled = 0;
    for turn in 0..8_000 {
        let books = random_books(&mut numbers, if turn % 40 == 0 { 120 } else { 30 });
        let (mut work, mut results) = (vec![3; WORK_WORDS + 2], [5; 250]);
        let found = books.ask(&mut work, &mut results);
        assert_eq!(found.refusal, 0);
        assert!(work[..WORK_WORDS].iter().all(|&word| word == 0));
        assert_eq!(work[WORK_WORDS..], [3; 2]);
        assert!(results[2 * found.listed as usize..]
            .iter()
            .all(|&word| word == 5));
        assert_search(&books, &found, &listed(&found, &results));
        settled += found.settled;
    }
    assert!((4_000..8_000).contains(&settled));
}

#[test]
fn full_size_by_brute_force() {
    let mut numbers = Numbers::new(6);
    for kind in standard::KINDS {
        let road = standard::road_book(kind, 11).unwrap();
        let yard = standard::kinds_yard_book(256, 11).unwrap();
        let tree = built(&mut numbers, &road, &yard);
        let query = query::write(0, 64, u32::MAX, &[0, 5, 900, 1_023, 5]);
        for wanted in [ALL, 2, 129] {
            let books = Books {
                asked: Asked::FirstK,
                wanted,
                road: road.clone(),
                tree: tree.clone(),
                query: query.clone(),
            };
            full_size(kind, books);
        }
    }
}

/// The first k yards, and drives to and just short of some of them, against brute force.
fn full_size(kind: &str, mut books: Books) {
    let (roads, tree, query) = books.read();
    let all = brute::crew_distances(&roads, &query);
    let yards = brute::wanted_yards(&tree, books.wanted);
    let ranked = brute::ranked(&all, &yards, &query);
    let last = ranked.len() - 1;
    let drives = [0, 2, 25, last].map(|place| ranked[place].0 as u32);
    let drives = drives.iter().flat_map(|&d| [d, d - 1]);
    let drives = drives.chain([0, u32::MAX]).map(Asked::Within);
    for asked in drives.chain([Asked::FirstK]) {
        books.asked = asked;
        let mut results = [0; 512];
        let found = books.ask(&mut [0; WORK_WORDS], &mut results);
        let expected = brute::listed(asked, &all, &yards, &query);
        assert_eq!(listed(&found, &results), expected, "{kind} {asked:?}");
    }
}

/// A state's queue, held yards and measured yards.
type Seen = (Vec<(u64, Item)>, Vec<Held>, Vec<u16>);

/// Every state of the search with yards measured in this way, and how many junctions were walked on from.
fn states(books: &Books, measuring: Measuring) -> (Vec<Seen>, usize) {
    let seen = |state: &State| -> Seen {
        let queue = state.queue.iter().copied().collect();
        (queue, state.held.clone(), state.measured.clone())
    };
    let search = books.tested().by(measuring);
    let mut states = Vec::new();
    let last = run_seen(&search, |state| states.push(seen(state))).state;
    states.push(seen(&last));
    (states, last.walked_on)
}

/// "Lists and counts come out as they did": every state, answer and result area is as with yards measured by rows.
#[test]
fn ways_walks_and_rows_alike() {
    let mut numbers = Numbers::new(12);
    let mut shorter = 0;
    for _ in 0..8_000 {
        let books = random_books(&mut numbers, 60);
        let ways = [
            Measuring::Rows,
            Measuring::WholeWalks,
            Measuring::Ways,
            Measuring::WaysWithoutCeiling,
        ];
        let answers = ways.map(|way| {
            let mut results = [5; 250];
            let work = &mut [0; WORK_WORDS];
            let (asked, wanted) = (books.asked, books.wanted);
            let found = ask_by(way, asked, wanted, books.all(), work, &mut results);
            (found, results)
        });
        assert!(answers.iter().all(|answer| *answer == answers[0]));
        let [rows, walks, ways, whole] = ways.map(|way| states(&books, way));
        assert!([&walks, &ways, &whole].iter().all(|seen| seen.0 == rows.0));
        assert!(ways.1 <= whole.1);
        shorter += u32::from(ways.1 < whole.1);
    }
    assert!(shorter >= 500, "{shorter}");
}

/// A drive of the last distance of a full list lists that list first, and after it only yards of that distance.
#[test]
fn a_full_list_comes_first() {
    let mut numbers = Numbers::new(10);
    let mut longer = 0;
    for _ in 0..1_500 {
        let d = district(&mut numbers, 40);
        let tree = built(&mut numbers, &d.road, &d.yard);
        let crews = [(); 2].map(|()| numbers.between16(0, d.junctions - 1));
        let wanted = wanted(&mut numbers).max(1);
        let k = numbers.between(1, d.yards.len().min(64) as u64) as u8;
        let query = query::write(numbers.between(0, 1) as u8, k, u32::MAX, &crews);
        let (mut first, mut all) = ([0; 128], [0; 80]);
        let work = &mut [0; WORK_WORDS];
        let full = search(&d.road, &tree, &query, wanted, work, &mut first);
        if full.listed < u32::from(k) {
            continue;
        }
        let first = listed(&full, &first);
        let last = first[usize::from(k) - 1].0;
        let seconds = last as u32;
        let found = within(&d.road, &tree, &query, wanted, seconds, work, &mut all);
        let all = listed(&found, &all);
        assert_eq!(all[..first.len()], first);
        assert!(all[first.len()..].iter().all(|&(d, _)| d == last));
        longer += u32::from(all.len() > first.len());
    }
    assert!(longer >= 50, "{longer}");
}

/// A search of the list: mostly sound books, some damaged.
fn next_books(numbers: &mut Numbers) -> Books {
    let mut books = random_books(numbers, 25);
    if numbers.once_in(8) {
        books.road = random_damage(numbers, &books.road);
    }
    if numbers.once_in(8) {
        books.tree = random_damage(numbers, &books.tree);
    }
    if numbers.once_in(8) {
        books.query = random_damage(numbers, &books.query);
    }
    if numbers.once_in(12) {
        books.wanted = 0;
    }
    books
}

/// An area of some length that holds anything.
fn any_area(numbers: &mut Numbers, least: u64, most: u64) -> Vec<u32> {
    let length = numbers.between(least, most);
    (0..length).map(|_| numbers.any() as u32).collect()
}

/// Demand 3 about one list of searches on one work and one result area.
fn assert_demand_3(numbers: &mut Numbers, counts: &mut [u32; 3]) {
    let full = WORK_WORDS as u64;
    let short = if numbers.once_in(10) { 0 } else { full };
    let mut work = any_area(numbers, short, full + 8);
    let mut results = any_area(numbers, 0, 140);
    let mut expected = results.clone();
    for _ in 0..numbers.between(1, 8) {
        let books = next_books(numbers);
        let before = (work.clone(), results.clone());
        let found = books.ask(&mut work, &mut results);
        if found.refusal != 0 {
            assert_eq!(
                found,
                Found {
                    refusal: found.refusal,
                    ..Found::default()
                }
            );
            assert_eq!((&work, &results), (&before.0, &before.1));
            counts[0] += 1;
            continue;
        }
        assert!(work[..WORK_WORDS].iter().all(|&word| word == 0));
        assert_eq!(work[WORK_WORDS..], before.0[WORK_WORDS..]);
        let list = listed(&found, &results);
        assert_search(&books, &found, &list);
        counts[1 + found.settled as usize] += 1;
        for (words, (distance, yard)) in expected.chunks_mut(2).zip(list) {
            words.copy_from_slice(&[u32::from(yard), distance as u32]);
        }
    }
    assert_eq!(results, expected);
}

#[test]
fn lists_of_searches() {
    let mut numbers = Numbers::new(7);
    let mut counts = [0; 3];
    for _ in 0..4_000 {
        assert_demand_3(&mut numbers, &mut counts);
    }
    assert!(counts.iter().all(|&count| count > 400), "{counts:?}");
}

#[test]
fn area_contents_never_matter() {
    let mut numbers = Numbers::new(8);
    for _ in 0..300 {
        let books = next_books(&mut numbers);
        let mut first = (vec![0; WORK_WORDS], vec![0; 128]);
        let mut second = (
            any_area(&mut numbers, 16_384, 16_384),
            any_area(&mut numbers, 128, 128),
        );
        let one = books.ask(&mut first.0, &mut first.1);
        let other = books.ask(&mut second.0, &mut second.1);
        assert_eq!(one, other);
        let words = 2 * one.listed as usize;
        assert_eq!(first.1[..words], second.1[..words]);
    }
}

#[test]
fn each_limit_is_a_prefix() {
    let mut numbers = Numbers::new(9);
    for _ in 0..150 {
        let d = district(&mut numbers, 20);
        let tree = built(&mut numbers, &d.road, &d.yard);
        let crews: Vec<u16> = (0..3)
            .map(|_| numbers.between16(0, d.junctions - 1))
            .collect();
        let roads = road::read(&d.road).unwrap();
        let query = query::write(0, 2, 0, &crews);
        let drive = seconds(&mut numbers, &roads, &d.yards, &query);
        let wanted = wanted(&mut numbers).max(1);
        for asked in [Asked::FirstK, Asked::Within(drive)] {
            assert_prefixes(|limit| {
                let query = query::write(0, 2, limit, &crews);
                let books = [&d.road[..], &tree, &query];
                ask(asked, wanted, books, &mut [0; WORK_WORDS], &mut [0; 40])
            });
        }
    }
}

/// A search with fewer steps than it takes to settle is spent.
fn assert_prefixes(ask: impl Fn(u32) -> Found) {
    let settled = ask(u32::MAX);
    assert_eq!(ask(settled.taken), settled);
    let mut measured = 0;
    for limit in 0..settled.taken {
        let spent = ask(limit);
        assert_eq!(
            (spent.refusal, spent.settled, spent.listed, spent.taken),
            (0, 0, 0, limit)
        );
        assert!((measured..=measured + 1).contains(&spent.measured));
        measured = spent.measured;
    }
}
