//! The proved finder beside the plain one: the same calls through both, searches also through the plain one that
//! measures by rows. Yard and tree books are of both versions.

use std::collections::BTreeMap;

use compare::build::KINDS_AREA_BYTES;
use compare::generate::call::{random_build, random_check, random_search};
use compare::generate::call::{random_within, tied_search};
use compare::generate::damage::{self, Call, ASKED, VERSIONS};
use compare::generate::{standard, Numbers};
use compare::refusal::WORK_WORDS;
use compare::{kinds, Asked, Found};
use proved::alike::{self, Areas};

/// How many calls of each kind got each refusal number.
#[derive(Default)]
struct Tally {
    checks: BTreeMap<u32, u32>,
    builds: BTreeMap<u32, u32>,
    searches: BTreeMap<u32, u32>,
    drives: BTreeMap<u32, u32>,
    /// Of the accepted searches for k yards, and of the accepted drive searches.
    spent: [u32; 2],
}

impl Tally {
    /// Makes a call through both finders.
    fn make(&mut self, call: &Call, numbers: &mut Numbers) {
        match call {
            Call::Check {
                road,
                yard,
                tree,
                work,
            } => {
                let refusal = alike::check([road, yard, tree], &words(numbers, *work));
                *self.checks.entry(refusal).or_default() += 1;
            }
            Call::Build {
                road,
                yard,
                m,
                leaf_limit,
                work,
                area,
            } => {
                let (work, area) = (words(numbers, *work), bytes(numbers, *area));
                let built = alike::build([road, yard], [*m, *leaf_limit], &work, &area);
                *self.builds.entry(built.refusal).or_default() += 1;
            }
            Call::Search {
                asked,
                wanted,
                road,
                tree,
                query,
                work,
                results,
            } => {
                let mut areas = Areas::new(&words(numbers, *work), &words(numbers, *results));
                let found = areas.ask(*asked, *wanted, [road, tree, query]);
                self.count(*asked, &found);
            }
        }
    }

    /// Counts a search by its refusal, and whether it is spent.
    fn count(&mut self, asked: Asked, found: &Found) {
        let [searches, drives] = &mut self.spent;
        let (refusals, spent) = match asked {
            Asked::FirstK => (&mut self.searches, searches),
            Asked::Within(_) => (&mut self.drives, drives),
        };
        *refusals.entry(found.refusal).or_default() += 1;
        *spent += u32::from(found.refusal == 0 && found.settled == 0);
    }

    /// Makes calls through both finders.
    fn make_all(&mut self, calls: &[Call], numbers: &mut Numbers) {
        calls.iter().for_each(|call| self.make(call, numbers));
    }

    /// Every refusal that a call can get was seen, and acceptance, each so often.
    fn assert_all(&self, least: u32) {
        let seen = |calls: &BTreeMap<u32, u32>| -> Vec<u32> {
            let often = calls.iter().filter(|(_, &count)| count >= least);
            often.map(|(&refusal, _)| refusal).collect()
        };
        println!("checks by refusal: {:?}", self.checks);
        assert_eq!(seen(&self.checks), [0, 1, 2, 3, 4, 5, 6, 7, 8, 9, 12]);
        println!("builds by refusal: {:?}", self.builds);
        assert_eq!(seen(&self.builds), [0, 1, 2, 3, 4, 5, 6, 8, 11, 12]);
        for searches in [&self.searches, &self.drives] {
            println!("searches by refusal: {searches:?}");
            assert_eq!(seen(searches), [0, 1, 2, 3, 4, 5, 6, 7, 8, 10, 11, 12, 13]);
        }
    }
}

/// A word area of any contents.
fn words(numbers: &mut Numbers, length: usize) -> Vec<u32> {
    let start = numbers.any() as u32;
    (0..length as u32)
        .map(|i| start.wrapping_add(i.wrapping_mul(0x9e37_79b9)))
        .collect()
}

/// A byte area of any contents.
fn bytes(numbers: &mut Numbers, length: usize) -> Vec<u8> {
    let start = numbers.any() as usize;
    (0..length)
        .map(|i| start.wrapping_add(i).wrapping_mul(151) as u8)
        .collect()
}

#[test]
fn every_cause() {
    let mut numbers = Numbers::new(21);
    let mut tally = Tally::default();
    for case in damage::cases() {
        tally.make(&case.call, &mut numbers);
    }
    for version in VERSIONS {
        tally.make_all(&damage::accepted(version), &mut numbers);
    }
    let (road, query) = (damage::sound_road(), damage::sound_query());
    for t in damage::false_trees() {
        let calls = damage::searches_of(&road, &t.book, &query);
        tally.make_all(&calls, &mut numbers);
    }
    tally.assert_all(1);
}

/// Every wanted byte on the sound trees; on trees with a false kind byte those of the first kinds, one more, and all.
#[test]
fn every_wanted_byte() {
    let mut numbers = Numbers::new(28);
    let mut tally = Tally::default();
    let (road, query) = (damage::sound_road(), damage::sound_query());
    for tree in VERSIONS.map(damage::sound_tree) {
        for wanted in 0..=255 {
            let calls = ASKED.map(|asked| damage::asked_of(asked, wanted, [&road, &tree, &query]));
            tally.make_all(&calls, &mut numbers);
        }
    }
    for t in damage::false_kinds() {
        for wanted in (0..16).chain([128, 255]) {
            let books = [&road[..], &t.book, &query];
            let calls = ASKED.map(|asked| damage::asked_of(asked, wanted, books));
            tally.make_all(&calls, &mut numbers);
        }
    }
    for refusals in [&tally.searches, &tally.drives] {
        assert_eq!(refusals.keys().copied().collect::<Vec<u32>>(), [0, 13]);
    }
}

/// Every number of seconds up to past the furthest yard, and the greatest ones, on the sound trees and on false ones.
#[test]
fn every_drive() {
    let mut numbers = Numbers::new(27);
    let mut tally = Tally::default();
    let (road, query) = (damage::sound_road(), damage::sound_query());
    let mut trees = VERSIONS.map(damage::sound_tree).to_vec();
    trees.extend(damage::false_distances().into_iter().map(|t| t.book));
    let greatest = [u32::MAX - 1, u32::MAX];
    for seconds in (0..380).chain(greatest) {
        for tree in &trees {
            let call = damage::within_of(seconds, &road, tree, &query);
            tally.make(&call, &mut numbers);
        }
        for wanted in [1, 2, 4, 8] {
            let books = [&road[..], &trees[1], &query];
            let call = damage::asked_of(Asked::Within(seconds), wanted, books);
            tally.make(&call, &mut numbers);
        }
    }
    assert_eq!(tally.drives.keys().copied().collect::<Vec<u32>>(), [0]);
}

/// A damaged road book beside every other damaged book.
#[test]
fn two_damages_with_roads() {
    let mut numbers = Numbers::new(22);
    let mut tally = Tally::default();
    let query = damage::sound_query();
    let (yards, trees) = (damage::yards(), damage::trees());
    let queries = damage::queries();
    let sound_trees = VERSIONS.map(damage::sound_tree);
    for r in &damage::roads() {
        for y in &yards {
            let tree = &sound_trees[usize::from(y.version) - 1];
            tally.make(&damage::check_of(&r.book, &y.book, tree), &mut numbers);
            tally.make(&damage::build_of(&r.book, &y.book), &mut numbers);
        }
        for t in &trees {
            let yard = damage::sound_yard(t.version);
            tally.make(&damage::check_of(&r.book, &yard, &t.book), &mut numbers);
            let calls = damage::searches_of(&r.book, &t.book, &query);
            tally.make_all(&calls, &mut numbers);
        }
        for q in &queries {
            let calls = damage::searches_of(&r.book, &sound_trees[0], &q.book);
            tally.make_all(&calls, &mut numbers);
        }
    }
}

/// A damaged tree book beside every damaged yard and query book; the wanted byte and the areas are wrong too at times.
#[test]
fn two_damages_with_trees() {
    let mut numbers = Numbers::new(29);
    let mut tally = Tally::default();
    let road = damage::sound_road();
    let (yards, queries) = (damage::yards(), damage::queries());
    for t in damage::trees().iter().chain(&damage::false_trees()) {
        for q in &queries {
            for asked in ASKED {
                let wanted = if numbers.once_in(3) { 0 } else { kinds::ALL };
                let mut call = damage::asked_of(asked, wanted, [&road, &t.book, &q.book]);
                if let (true, Call::Search { work, .. }) = (numbers.once_in(3), &mut call) {
                    *work -= 1;
                }
                tally.make(&call, &mut numbers);
            }
        }
        for y in &yards {
            tally.make(&damage::check_of(&road, &y.book, &t.book), &mut numbers);
        }
        for yard in VERSIONS.map(damage::sound_yard) {
            tally.make(&damage::check_of(&road, &yard, &t.book), &mut numbers);
        }
    }
}

#[test]
fn random_districts() {
    let mut numbers = Numbers::new(23);
    let mut tally = Tally::default();
    for turn in 0..20_000 {
        let most = if turn % 100 == 0 { 400 } else { 40 };
        tally.make(&random_check(&mut numbers, most), &mut numbers);
        tally.make(&random_build(&mut numbers, most), &mut numbers);
        tally.make(&random_search(&mut numbers, most), &mut numbers);
        tally.make(&random_within(&mut numbers, most), &mut numbers);
    }
    tally.assert_all(20);
    assert!(tally.spent.iter().all(|&spent| spent >= 1_000));
}

/// Searches where many yards have the same sum, so that the furthest crews decide.
#[test]
fn tied_districts() {
    let mut numbers = Numbers::new(30);
    let mut tally = Tally::default();
    for turn in 0..20_000 {
        let most = if turn % 100 == 0 { 400 } else { 40 };
        tally.make(&tied_search(&mut numbers, most), &mut numbers);
    }
    for searches in [&tally.searches, &tally.drives] {
        assert!(searches[&0] >= 8_000, "{searches:?}");
    }
    assert!(tally.spent.iter().all(|&spent| spent >= 100));
}

#[test]
fn any_bytes() {
    let mut numbers = Numbers::new(24);
    let mut tally = Tally::default();
    for _ in 0..10_000 {
        let [road, yard, tree, query] = damage::damaged_books(&mut numbers);
        tally.make(&damage::check_of(&road, &yard, &tree), &mut numbers);
        tally.make(&damage::build_of(&road, &yard), &mut numbers);
        let calls = damage::searches_of(&road, &tree, &query);
        tally.make_all(&calls, &mut numbers);
    }
}

#[test]
fn random_fields() {
    let mut numbers = Numbers::new(25);
    let mut tally = Tally::default();
    let sound = damage::sound_books(1);
    for _ in 0..10_000 {
        let [yard, tree, query] = [2, 2, 1].map(|v| damage::random_book(&mut numbers, v));
        let [road, sound_yard, sound_tree, _] = &sound;
        tally.make(&damage::check_of(road, sound_yard, &tree), &mut numbers);
        tally.make(&damage::build_of(road, &yard), &mut numbers);
        let calls = damage::searches_of(road, sound_tree, &query);
        tally.make_all(&calls, &mut numbers);
    }
}

#[test]
fn full_size() {
    let mut numbers = Numbers::new(26);
    let mut tally = Tally::default();
    for kind in standard::KINDS {
        let road = standard::road_book(kind, 7).unwrap();
        for (yards, m, leaf_limit) in [(256, 4, 1), (256, 4, 256), (100, 3, 16), (1, 1, 1)] {
            let first = standard::yard_book(yards, 7).unwrap();
            let second = standard::kinds_yard_book(yards, 7).unwrap();
            for yard in [&first, &second] {
                for call in full_calls(&mut numbers, [&road, yard], [m, leaf_limit]) {
                    tally.make(&call, &mut numbers);
                }
            }
        }
    }
    assert!(tally.checks[&0] >= 48);
    assert_eq!(tally.builds.keys().copied().collect::<Vec<u32>>(), [0]);
}

/// A check of the built tree, one of a tree that differs in a bit, and the build, of a road and a yard book.
fn full_calls(numbers: &mut Numbers, [road, yard]: [&[u8]; 2], parameters: [u32; 2]) -> [Call; 3] {
    let [m, leaf_limit] = parameters;
    let mut area = vec![0; KINDS_AREA_BYTES];
    let built = compare::build(road, yard, m, leaf_limit, &mut [0; WORK_WORDS], &mut area);
    let tree = &area[..built.length as usize];
    let mut other = tree.to_vec();
    let place = numbers.between(12, tree.len() as u64 - 1) as usize;
    other[place] ^= 1;
    let build = Call::Build {
        road: road.to_vec(),
        yard: yard.to_vec(),
        m,
        leaf_limit,
        work: WORK_WORDS + 3,
        area: KINDS_AREA_BYTES + 3,
    };
    [
        damage::check_of(road, yard, tree),
        damage::check_of(road, yard, &other),
        build,
    ]
}
