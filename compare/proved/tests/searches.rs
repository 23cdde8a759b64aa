//! Lists of searches through the proved finder and the plain ones on shared areas, for yards of wanted kinds, and
//! settled searches against brute force over the wanted yards, their measured counts against the yards' keys.

use compare::build::KINDS_AREA_BYTES;
use compare::generate::call::{random_search, random_within, tied_search};
use compare::generate::damage::{false_root, sound_query, sound_road, sound_yard, Call, VERSIONS};
use compare::generate::district::{district, false_tree, query_book, random_tree, wanted};
use compare::generate::{standard, Numbers};
use compare::kinds;
use compare::query::Query;
use compare::refusal::WORK_WORDS;
use compare::road::RoadBook;
use compare::search::keys::{greatest_worth, keys, worth_measuring, Keyed};
use compare::search::{tested_books, Search};
use compare::tree::Tree;
use compare::yard::{self, YardBook};
use compare::{brute, build, check, query, road, tree, Asked, Found};
use proved::alike::{self, Areas};

/// The three books of a search, what it is asked for, and the wanted kinds.
struct Books {
    asked: Asked,
    wanted: u8,
    road: Vec<u8>,
    tree: Vec<u8>,
    query: Vec<u8>,
}

impl Books {
    /// The books of a search's call.
    fn of(call: Call) -> Self {
        match call {
            Call::Search {
                asked,
                wanted,
                road,
                tree,
                query,
                ..
            } => Books {
                asked,
                wanted,
                road,
                tree,
                query,
            },
            _ => unreachable!("it is a search"),
        }
    }

    /// A district's books of some version: the tree built, cut at random, or false; some books damaged. For k yards or
    /// within a drive, of any kinds, at times none.
    fn random(numbers: &mut Numbers, most_junctions: u16) -> Self {
        let random = match numbers.between(0, 1) {
            0 => random_search,
            _ => random_within,
        };
        Books::of(random(numbers, most_junctions))
    }

    fn all(&self) -> [&[u8]; 3] {
        [&self.road, &self.tree, &self.query]
    }

    /// Makes the search through all finders.
    fn ask(&self, areas: &mut Areas) -> Found {
        areas.ask(self.asked, self.wanted, self.all())
    }

    /// Whether check passes the tree beside these roads.
    fn passes(&self) -> bool {
        check::passes(&self.road, &self.tree)
    }

    /// The search of the books, which must be sound.
    fn search(&self) -> Search {
        tested_books(self.asked, self.wanted, self.all()).expect("sound books")
    }

    /// The books read, if none is refused.
    fn read(&self) -> Option<(RoadBook, Tree, Query)> {
        let road = road::read(&self.road).ok()?;
        let tree = tree::read(&self.tree, road.junctions).ok()?;
        let query = query::read(&self.query, road.junctions).ok()?;
        Some((road, tree, query))
    }

    /// All of the tree's wanted yards in yard order, by brute force; the books must be sound.
    fn ranked(&self) -> Vec<(u64, u16)> {
        self.ranked_of(brute::wanted_yards)
    }

    /// The same of some of the tree's wanted yards.
    fn ranked_of(&self, yards: fn(&Tree, u8) -> Vec<u16>) -> Vec<(u64, u16)> {
        let (road, tree, query) = self.read().expect("sound books");
        let all = brute::crew_distances(&road, &query);
        brute::ranked(&all, &yards(&tree, self.wanted), &query)
    }

    /// The words that a settled search writes, by brute force; none if check refuses the tree beside these roads.
    fn list(&self) -> Option<Vec<u32>> {
        let (_, _, query) = self.read()?;
        self.passes()
            .then(|| words(settled(self.asked, query.k, &self.ranked())))
    }

    /// "with true distances, distinct yards and yard order, but a yard may be left out": all of them can enter the
    /// queue; in a drive search none above the seconds is listed.
    fn assert_true(&self, list: &[u32]) {
        let ranked = self.ranked_of(brute::entering_yards);
        let pairs = pairs(list);
        assert!(in_turn(&pairs, &ranked));
        match self.asked {
            Asked::FirstK => assert_eq!(pairs.len(), ranked.len().min(self.query[6].into())),
            Asked::Within(seconds) => assert!(pairs.iter().all(|p| p.0 <= u64::from(seconds))),
        }
    }
}

/// Whether all of a list stand in another, each after the one before it.
fn in_turn(list: &[(u64, u16)], all: &[(u64, u16)]) -> bool {
    let mut all = all.iter();
    list.iter().all(|listed| all.any(|one| one == listed))
}

/// Of all wanted yards in yard order those that a settled list has: "exactly the first k of the tree's yards (or all if
/// fewer)", or "exactly the tree's yards within the drive".
fn settled(asked: Asked, k: usize, ranked: &[(u64, u16)]) -> &[(u64, u16)] {
    let count = match asked {
        Asked::FirstK => k.min(ranked.len()),
        Asked::Within(seconds) => ranked
            .iter()
            .filter(|yard| yard.0 <= u64::from(seconds))
            .count(),
    };
    &ranked[..count]
}

/// The (distance, yard) pairs of a list's words.
fn pairs(list: &[u32]) -> Vec<(u64, u16)> {
    let pairs = list.chunks(2);
    pairs.map(|p| (u64::from(p[1]), p[0] as u16)).collect()
}

/// "(yard, distance) words".
fn words(list: &[(u64, u16)]) -> Vec<u32> {
    let words = |&(distance, yard): &(u64, u16)| [u32::from(yard), distance as u32];
    list.iter().flat_map(words).collect()
}

/// What became of the searches.
#[derive(Clone, Copy, Debug, Default)]
struct Seen {
    refused: u32,
    spent: u32,
    /// Settled on a tree that passes.
    exact: u32,
    /// Settled on a tree that check refuses by 9.
    others: u32,
    by_keys: ByKeys,
}

/// The searches that settled on a tree that passes, whose measured counts were held against the keys.
#[derive(Clone, Copy, Debug, Default)]
struct ByKeys {
    held: u32,
    /// Some wanted yard is not measured.
    left: u32,
    /// Some key equals the last listed distance of a full list, or the seconds.
    equal: u32,
}

impl ByKeys {
    /// Holds the answer of a search with this settled list against the keys.
    fn hold(&mut self, books: &Books, list: &[(u64, u16)], found: &Found) {
        let search = books.search();
        self.hold_beside(&keys(&search), greatest_worth(&search, list), found);
    }

    /// "the measured yards are exactly the wanted yards whose key is not above the last listed distance, or all wanted
    /// yards when the list is short of k", or in a drive search not above the seconds.
    fn hold_beside(&mut self, keys: &[Keyed], greatest: Option<u64>, found: &Found) {
        let worth = worth_measuring(keys, greatest);
        assert_eq!(found.measured as usize, worth.len());
        self.held += 1;
        self.left += u32::from(worth.len() < keys.len());
        let equal = worth.last().is_some_and(|last| Some(last.key) == greatest);
        self.equal += u32::from(equal);
    }

    /// So many were held, and so many of them left some yard, and had an equal key.
    fn assert_least(&self, held: u32, left: u32, equal: u32) {
        let enough = self.held >= held && self.left >= left && self.equal >= equal;
        assert!(enough, "{self:?}");
    }
}

/// An area of some length that holds anything.
fn any_area(numbers: &mut Numbers, least: u64, most: u64) -> Vec<u32> {
    let length = numbers.between(least, most);
    (0..length).map(|_| numbers.any() as u32).collect()
}

/// A list of searches, each given both areas as the one before left them; the settled lists go over the results' start
/// in turn.
fn make_list(numbers: &mut Numbers, seen: &mut [Seen; 2]) {
    let full = WORK_WORDS as u64;
    let least = if numbers.once_in(10) { 0 } else { full };
    let work = any_area(numbers, least, full + 8);
    let mut expected = any_area(numbers, 0, 140);
    let mut areas = Areas::new(&work, &expected);
    for _ in 0..numbers.between(1, 8) {
        let books = Books::random(numbers, 30);
        let found = books.ask(&mut areas);
        let words = 2 * found.listed as usize;
        let seen = match books.asked {
            Asked::FirstK => &mut seen[0],
            Asked::Within(_) => &mut seen[1],
        };
        match (found.refusal, found.settled, books.list()) {
            (0, 1, Some(list)) => {
                expected[..list.len()].copy_from_slice(&list);
                assert_eq!(words, list.len());
                seen.by_keys.hold(&books, &pairs(&list), &found);
                seen.exact += 1;
            }
            (0, 1, None) => {
                books.assert_true(&areas.results()[..words]);
                expected[..words].copy_from_slice(&areas.results()[..words]);
                seen.others += 1;
            }
            (0, _, _) => seen.spent += 1,
            _ => seen.refused += 1,
        }
        assert_eq!(areas.results(), expected);
    }
}

#[test]
fn lists_on_shared_areas() {
    let mut numbers = Numbers::new(31);
    let mut seen = [Seen::default(); 2];
    for _ in 0..8_000 {
        make_list(&mut numbers, &mut seen);
    }
    println!("searches and drive searches: {seen:?}");
    for seen in seen {
        let least = seen.refused.min(seen.spent).min(seen.exact);
        assert!(least.min(seen.others) >= 500, "{seen:?}");
        seen.by_keys.assert_least(seen.exact, 500, 500);
    }
}

/// Some queries with one to 16 crews, k 1 to 64, and no limit, a short one or the steps that the search takes at most.
fn queries(numbers: &mut Numbers) -> Vec<Vec<u8>> {
    let mut queries = Vec::new();
    for (crews, k, limit) in [
        (1, 64, u32::MAX),
        (2, 1, 767),
        (4, 10, 1_000),
        (16, 64, 40),
        (16, 3, 2_000),
    ] {
        for aggregate in 0..2 {
            let crews: Vec<u16> = (0..crews).map(|_| numbers.between16(0, 1_023)).collect();
            queries.push(query::write(aggregate, k, limit, &crews));
        }
    }
    queries
}

/// What yards are asked for: the first k; the drive of the first, of a tenth and of all of them, each with one second
/// less; the least and the greatest drive.
fn asks(ranked: &[(u64, u16)]) -> Vec<Asked> {
    let mut drives = vec![0, u32::MAX];
    for place in [0, ranked.len() / 10, ranked.len().saturating_sub(1)] {
        if let Some(&(aggregate, _)) = ranked.get(place) {
            let aggregate = aggregate as u32;
            drives.extend([aggregate, aggregate.saturating_sub(1)]);
        }
    }
    let drives = drives.into_iter().map(Asked::Within);
    drives.chain([Asked::FirstK]).collect()
}

/// All that the yards are asked for, on a false tree and on one that passes; the settled lists of this one against
/// brute force, and its measured counts against the keys.
fn ask_all(areas: &mut Areas, mut books: Books, false_tree: &[u8], by_keys: &mut ByKeys) {
    let (ranked, mut search) = (books.ranked(), books.search());
    let keys = keys(&search);
    for asked in asks(&ranked) {
        (books.asked, search.asked) = (asked, asked);
        let others = [&books.road[..], false_tree, &books.query];
        areas.ask(asked, books.wanted, others);
        let found = books.ask(areas);
        let mut list = &[][..];
        if found.settled == 1 {
            list = settled(asked, search.query.k, &ranked);
            by_keys.hold_beside(&keys, greatest_worth(&search, list), &found);
        }
        assert_eq!(areas.results()[..2 * found.listed as usize], words(list));
    }
}

/// A yard book of a version, with so many yards of the standard district.
fn standard_yards(version: u8, yards: u32) -> Vec<u8> {
    let book = match version {
        1 => standard::yard_book(yards, 7),
        _ => standard::kinds_yard_book(yards, 7),
    };
    book.unwrap()
}

#[test]
fn full_size() {
    let mut numbers = Numbers::new(32);
    let mut areas = Areas::new(&[7; WORK_WORDS + 5], &[7; 515]);
    let mut by_keys = ByKeys::default();
    for kind in standard::KINDS {
        let road = standard::road_book(kind, 7).unwrap();
        for (version, yards, m, leaf_limit) in [
            (1, 256, 4, 16),
            (2, 256, 4, 16),
            (2, 256, 1, 256),
            (2, 100, 3, 4),
            (1, 1, 1, 1),
        ] {
            let yard = standard_yards(version, yards);
            let mut area = vec![0; KINDS_AREA_BYTES];
            let built = build(&road, &yard, m, leaf_limit, &mut [0; WORK_WORDS], &mut area);
            area.truncate(built.length as usize);
            assert_eq!(check(&road, &yard, &area, &mut [0; WORK_WORDS]), 0);
            let sound = tree::read(&area, 1_024).unwrap();
            let other = tree::write(&false_tree(&mut numbers, &sound));
            for (query, wanted) in queries(&mut numbers)
                .into_iter()
                .zip(KINDS.into_iter().cycle())
            {
                let books = Books {
                    asked: Asked::FirstK,
                    wanted,
                    road: road.clone(),
                    tree: area.clone(),
                    query,
                };
                ask_all(&mut areas, books, &other, &mut by_keys);
            }
        }
    }
    println!("{by_keys:?}");
    by_keys.assert_least(1_000, 500, 100);
}

/// The kinds that are wanted in turn: all, one yard in eight, one in four, three in eight.
const KINDS: [u8; 5] = [kinds::ALL, 1, 6, kinds::ALL, 0b1001_0010];

/// A tree refused by 9 whose root's key is above 32 bits, in which it would be 4,294,967,277 or 103: no drive reaches
/// it, and a search for k yards goes on below it. Yards 1 and 2 are 10 + 81 and 21 + 70 seconds away, so that yard 2,
/// whose furthest crew is nearer, comes first.
#[test]
fn a_root_above_32_bits() {
    for least in [u32::MAX, 2_147_483_708] {
        let mut books = Books {
            asked: Asked::Within(u32::MAX),
            wanted: kinds::ALL,
            road: sound_road(),
            tree: false_root(least),
            query: sound_query(),
        };
        let checked = [&books.road[..], &sound_yard(1), &books.tree];
        assert_eq!(alike::check(checked, &[7; WORK_WORDS]), 9);
        let mut areas = Areas::new(&[7; WORK_WORDS], &[7; 10]);
        let counts = |found: Found| [found.settled, found.listed, found.taken, found.measured];
        assert_eq!(counts(books.ask(&mut areas)), [1, 0, 0, 0]);
        books.asked = Asked::FirstK;
        assert_eq!(counts(books.ask(&mut areas)), [1, 2, 8, 2]);
        assert_eq!(areas.results()[..4], [2, 91, 1, 91]);
    }
}

/// A drive of the last distance of a full list lists that list first, and after it only yards of that distance.
#[test]
fn a_full_list_comes_first() {
    let mut numbers = Numbers::new(33);
    let (mut settled, mut longer) = (0, 0);
    for _ in 0..8_000 {
        let mut books = Books::random(&mut numbers, 40);
        books.asked = Asked::FirstK;
        let mut areas = Areas::new(&[7; WORK_WORDS], &[7; 128]);
        let found = books.ask(&mut areas);
        let first = areas.results()[..2 * found.listed as usize].to_vec();
        let Some(list) = books.list().filter(|_| found.settled == 1) else {
            continue;
        };
        assert_eq!(first, list);
        let Some(&last) = first.last() else {
            continue;
        };
        books.asked = Asked::Within(last);
        let found = books.ask(&mut areas);
        if found.settled == 0 {
            continue;
        }
        let (start, rest) = areas.results()[..2 * found.listed as usize].split_at(first.len());
        assert_eq!(start, first);
        assert!(rest.chunks(2).all(|pair| pair[1] == last));
        settled += 1;
        longer += u32::from(!rest.is_empty());
    }
    println!("{settled} settled, {longer} of them longer");
    assert!(settled >= 1_000 && longer >= 100);
}

/// The list's aggregates are, place by place, those of the order by aggregate and number; by the maximum so is the
/// whole list. By the sum the order is often another, and at times so are the first k yards. The measured yards are
/// those by the keys, of which many are the last listed distance.
#[test]
fn aggregates_are_those_of_the_order_by_number() {
    let mut numbers = Numbers::new(37);
    let (mut other_order, mut other_yards) = (0, 0);
    let mut by_keys = ByKeys::default();
    for _ in 0..20_000 {
        let books = Books::of(tied_search(&mut numbers, 40));
        let mut areas = Areas::new(&[7; WORK_WORDS], &[7; 128]);
        let found = books.ask(&mut areas);
        if found.settled == 0 || !books.passes() {
            continue;
        }
        let list = pairs(&areas.results()[..2 * found.listed as usize]);
        by_keys.hold(&books, &list, &found);
        let mut by_number = books.ranked();
        by_number.sort_unstable();
        let by_number = settled(books.asked, books.query[6].into(), &by_number);
        let aggregates = |list: &[(u64, u16)]| -> Vec<u64> { list.iter().map(|p| p.0).collect() };
        assert_eq!(aggregates(&list), aggregates(by_number));
        if books.query[5] == 1 {
            assert_eq!(list, by_number);
        }
        other_order += u32::from(list != by_number);
        other_yards += u32::from(list.iter().any(|yard| !by_number.contains(yard)));
    }
    println!("{other_order} in another order, {other_yards} of other yards; {by_keys:?}");
    assert!(other_order >= 3_000 && other_yards >= 400);
    by_keys.assert_least(10_000, 3_000, 3_000);
}

/// Fewer steps than a drive search takes to settle leave it spent, on trees that pass and on false ones.
#[test]
fn spent_drives() {
    let mut numbers = Numbers::new(34);
    let mut spent = 0;
    for _ in 0..300 {
        let mut books = Books::of(random_within(&mut numbers, 25));
        let mut areas = Areas::new(&[7; WORK_WORDS], &[7; 50]);
        let mut with_limit = |limit: u32| {
            if let Some(bytes) = books.query.get_mut(7..11) {
                bytes.copy_from_slice(&limit.to_be_bytes());
            }
            books.ask(&mut areas)
        };
        let settled = with_limit(u32::MAX);
        for limit in 0..settled.taken {
            let found = with_limit(limit);
            let counts = [found.refusal, found.settled, found.listed, found.taken];
            assert_eq!(counts, [0, 0, 0, limit]);
            spent += 1;
        }
        assert_eq!(with_limit(settled.taken), settled);
    }
    println!("{spent} spent");
    assert!(spent >= 1_000);
}

/// A version 1 tree is searched as the same tree in version 2 with 255 throughout, and checked alike beside both yard
/// books.
#[test]
fn versions_alike() {
    let mut numbers = Numbers::new(35);
    for _ in 0..1_500 {
        let d = district(&mut numbers, 40);
        let roads = road::read(&d.road).unwrap();
        let yards = yard::of_all_kinds(&d.yards);
        let book = YardBook { version: 1, yards };
        let mut tree = random_tree(&mut numbers, &roads, &book);
        if numbers.once_in(3) {
            tree = false_tree(&mut numbers, &tree);
        }
        let trees = VERSIONS.map(|version| {
            tree.version = version;
            tree::write(&tree)
        });
        let (query, wanted) = (query_book(&mut numbers, d.junctions), wanted(&mut numbers));
        for asked in [Asked::FirstK, Asked::Within(numbers.any() as u32 % 1_000)] {
            let answers = trees.each_ref().map(|tree| {
                let mut areas = Areas::new(&[7; WORK_WORDS], &[7; 128]);
                let found = areas.ask(asked, wanted, [&d.road, tree, &query]);
                (found, areas.results().to_vec())
            });
            assert_eq!(answers[0], answers[1]);
        }
        let yards = VERSIONS.map(|version| yard::write_version(version, &book.yards));
        let checks = yards.each_ref().map(|yard| {
            let check = |tree: &Vec<u8>| alike::check([&d.road, yard, tree], &[7; WORK_WORDS]);
            trees.each_ref().map(check)
        });
        assert_eq!(checks, [[checks[0][0]; 2]; 2]);
    }
}

/// What version 2 kinds cost a check beside version 1 books: 9 unless every kind byte is 255.
#[test]
fn versions_beside_each_other() {
    let mut numbers = Numbers::new(36);
    let mut seen = [0; 2];
    for _ in 0..500 {
        let d = district(&mut numbers, 20);
        let all = d.book.yards.iter().all(|yard| yard.kinds == kinds::ALL);
        let yards = VERSIONS.map(|version| yard::write_version(version, &d.book.yards));
        let trees = yards.each_ref().map(|yard| {
            let (work, area) = ([7; WORK_WORDS], vec![7; KINDS_AREA_BYTES]);
            let built = alike::build([&d.road, yard], [2, 2], &work, &area);
            assert_eq!(built.refusal, 0);
            let (mut work, mut area) = (work, area);
            build(&d.road, yard, 2, 2, &mut work, &mut area);
            area.truncate(built.length as usize);
            area
        });
        for (yard, beside) in [(&yards[0], &trees[1]), (&yards[1], &trees[0])] {
            let refusal = alike::check([&d.road, yard, beside], &[7; WORK_WORDS]);
            assert_eq!(refusal, if all { 0 } else { 9 });
        }
        seen[usize::from(all)] += 1;
    }
    assert!(seen.iter().all(|&count| count >= 50), "{seen:?}");
}
