//! Each refusal by each cause, in the paper's order, with every lent byte and word as it was.

use std::collections::BTreeSet;

use compare::build::{AREA_BYTES, KINDS_AREA_BYTES};
use compare::generate::damage::{self, Call, Case, Damage, VERSIONS};
use compare::generate::Numbers;
use compare::refusal::WORK_WORDS;
use compare::{ask, build, check, kinds, query, tree, Asked, Found};

/// Makes the call on areas that hold 7 everywhere; the answer is the refusal number.
fn refusal(call: &Call) -> u32 {
    match call.clone() {
        Call::Check {
            road,
            yard,
            tree,
            work,
        } => {
            let mut work = vec![7; work];
            let number = check(&road, &yard, &tree, &mut work);
            assert_work(number, &work);
            number
        }
        Call::Build {
            road,
            yard,
            m,
            leaf_limit,
            work,
            area,
        } => build_refusal(&road, &yard, [m, leaf_limit], work, area),
        Call::Search {
            asked,
            wanted,
            road,
            tree,
            query,
            work,
            results,
        } => search_refusal(asked, wanted, [&road, &tree, &query], [work, results]),
    }
}

/// Makes the build.
fn build_refusal(road: &[u8], yard: &[u8], parameters: [u32; 2], work: usize, area: usize) -> u32 {
    let mut work = vec![7; work];
    let mut area = vec![7; area];
    let [m, leaf_limit] = parameters;
    let built = build(road, yard, m, leaf_limit, &mut work, &mut area);
    assert_work(built.refusal, &work);
    assert_eq!(built.refusal == 0, built.length > 0);
    let rest = &area[built.length as usize..];
    assert!(rest.iter().all(|&byte| byte == 7));
    built.refusal
}

/// Makes the search.
fn search_refusal(asked: Asked, wanted: u8, books: [&[u8]; 3], areas: [usize; 2]) -> u32 {
    let [mut work, mut results] = areas.map(|words| vec![7; words]);
    let found = ask(asked, wanted, books, &mut work, &mut results);
    assert_work(found.refusal, &work);
    if found.refusal != 0 {
        let refusal = found.refusal;
        let rest = Found::default();
        assert_eq!(found, Found { refusal, ..rest });
    }
    let rest = &results[2 * found.listed as usize..];
    assert!(rest.iter().all(|&word| word == 7));
    found.refusal
}

/// An accepted call has zeroed the first 16,384 words and left the rest; a refused one has left all.
fn assert_work(refusal: u32, work: &[u32]) {
    let zeroed = if refusal == 0 { WORK_WORDS } else { 0 };
    assert!(work[..zeroed].iter().all(|&word| word == 0));
    assert!(work[zeroed..].iter().all(|&word| word == 7));
}

#[test]
fn every_cause() {
    let mut reached = BTreeSet::new();
    for Case {
        cause,
        refusal: expected,
        call,
    } in damage::cases()
    {
        assert_eq!(refusal(&call), expected, "{cause}");
        reached.insert(expected);
    }
    assert_eq!(reached, (1..=13).collect());
}

#[test]
fn sound_calls_are_accepted() {
    for mut call in VERSIONS.into_iter().flat_map(damage::accepted) {
        assert_eq!(refusal(&call), 0);
        match &mut call {
            Call::Check { work, .. } => *work += 5,
            Call::Build { work, area, .. } => (*work, *area) = (*work + 5, *area + 5),
            Call::Search { work, results, .. } => (*work, *results) = (*work + 5, *results + 5),
        }
        assert_eq!(refusal(&call), 0);
    }
}

#[test]
fn false_trees_are_searched() {
    let (road, query) = (damage::sound_road(), damage::sound_query());
    for Damage { cause, book, .. } in damage::false_trees() {
        for call in damage::searches_of(&road, &book, &query) {
            assert_eq!(refusal(&call), 0, "{cause}");
        }
    }
}

#[test]
fn the_earlier_book_is_refused() {
    let (roads, yards, trees) = (damage::roads(), damage::yards(), damage::trees());
    for r in &roads {
        for y in &yards {
            let tree = damage::sound_tree(y.version);
            let call = damage::check_of(&r.book, &y.book, &tree);
            assert_eq!(refusal(&call), r.refusal);
            assert_eq!(refusal(&damage::build_of(&r.book, &y.book)), r.refusal);
        }
        for t in &trees {
            let yard = damage::sound_yard(t.version);
            let call = damage::check_of(&r.book, &yard, &t.book);
            assert_eq!(refusal(&call), r.refusal);
            for call in damage::searches_of(&r.book, &t.book, &damage::sound_query()) {
                assert_eq!(refusal(&call), r.refusal);
            }
        }
    }
}

#[test]
fn the_earlier_of_yard_tree_and_query_is_refused() {
    let road = damage::sound_road();
    let (yards, queries) = (damage::yards(), damage::queries());
    for t in &damage::trees() {
        for y in &yards {
            let call = damage::check_of(&road, &y.book, &t.book);
            assert_eq!(refusal(&call), y.refusal);
        }
        for version in VERSIONS {
            let yard = damage::sound_yard(version);
            let call = damage::check_of(&road, &yard, &t.book);
            assert_eq!(
                refusal(&call),
                t.refusal,
                "whatever the yard book's version"
            );
        }
        for q in &queries {
            for call in damage::searches_of(&road, &t.book, &q.book) {
                assert_eq!(refusal(&call), t.refusal);
            }
        }
    }
}

/// "8 compares yards only": other yards are refused by 8 though their kinds are false too.
#[test]
fn yards_disagree_before_kinds_are_false() {
    let road = damage::sound_road();
    let other = compare::yard::write(&[1, 2, 5, 7, 14]);
    for t in damage::false_trees() {
        assert_eq!(refusal(&damage::check_of(&road, &other, &t.book)), 8);
    }
}

#[test]
fn books_are_refused_before_the_call() {
    for case in damage::cases() {
        let mut call = case.call.clone();
        match &mut call {
            Call::Check { work, .. } => *work = 0,
            Call::Build { m, work, area, .. } if case.refusal < 11 => {
                (*m, *work, *area) = (0, 0, 0)
            }
            Call::Build { work, area, .. } => (*work, *area) = (0, 0),
            Call::Search {
                wanted,
                work,
                results,
                ..
            } => {
                (*work, *results) = (0, 0);
                if case.refusal != 12 {
                    *wanted = 0;
                }
            }
        }
        assert_eq!(refusal(&call), case.refusal, "{}", case.cause);
    }
}

/// A call with one damaged book in it.
type WithBook = fn(&[u8]) -> Call;

/// The books of all kinds with what they are refused by, in their calls.
fn damaged_calls() -> Vec<(Damage, WithBook)> {
    let mut calls: Vec<(Damage, WithBook)> = Vec::new();
    for d in damage::roads() {
        calls.push((d, |book| damage::build_of(book, &damage::sound_yard(1))));
    }
    for d in damage::yards() {
        calls.push((d, |book| damage::build_of(&damage::sound_road(), book)));
    }
    for d in damage::trees().into_iter().chain(damage::false_trees()) {
        calls.push((d, |book| {
            damage::check_of(&damage::sound_road(), &damage::sound_yard(1), book)
        }));
    }
    for d in damage::queries() {
        calls.push((d, |book| {
            damage::search_of(&damage::sound_road(), &damage::sound_tree(1), book)
        }));
    }
    for d in damage::queries() {
        calls.push((d, |book| {
            damage::within_of(0, &damage::sound_road(), &damage::sound_tree(2), book)
        }));
    }
    calls
}

#[test]
fn the_earlier_test_of_a_book_refuses() {
    for (d, call) in damaged_calls() {
        let cause = &d.cause;
        if d.refusal > 1 {
            let off = damage::with_count(&d.book, d.book.len() as u32);
            assert_eq!(refusal(&call(&off)), 1, "{cause}");
            let version = damage::with_version(&d.book, 3);
            assert_eq!(refusal(&call(&version)), 2, "{cause}");
        }
        if d.refusal > 4 {
            let longer = damage::longer(&d.book, &[0]);
            assert_eq!(refusal(&call(&longer)), 4, "{cause}");
            let shorter = damage::cut(&d.book, 1);
            assert!(matches!(refusal(&call(&shorter)), 3 | 4), "{cause}");
        }
    }
}

#[test]
fn a_value_before_reach_and_shape() {
    let road = compare::road::Road {
        low: 1,
        high: 2,
        seconds: 0,
    };
    let apart = compare::road::write(3, &[road]);
    assert_eq!(compare::road::read(&apart).err(), Some(5));
}

#[test]
fn shape_before_disagreement_before_truth() {
    let road = damage::sound_road();
    for version in VERSIONS {
        let yard = damage::sound_yard(version);
        let nine = tree::write(&damage::deep_tree(version, 9));
        assert_eq!(refusal(&damage::check_of(&road, &yard, &nine)), 7);
        let eight = tree::write(&damage::deep_tree(version, 8));
        assert_eq!(refusal(&damage::check_of(&road, &yard, &eight)), 8);
        let yards: Vec<u16> = (0..8).collect();
        let yard = compare::yard::write(&yards);
        assert_eq!(refusal(&damage::check_of(&road, &yard, &eight)), 9);
        let call = damage::search_of(&road, &eight, &damage::sound_query());
        assert_eq!(refusal(&call), 0);
    }
}

#[test]
fn greatest_query_passes() {
    let (road, tree) = (damage::sound_road(), damage::sound_tree(1));
    let query = query::write(1, 64, u32::MAX, &[15; 16]);
    let mut call = damage::search_of(&road, &tree, &query);
    assert_eq!(refusal(&call), 12);
    if let Call::Search { results, .. } = &mut call {
        *results = 128;
    }
    assert_eq!(refusal(&call), 0);
    for seconds in [0, u32::MAX] {
        let call = damage::within_of(seconds, &road, &tree, &query);
        assert_eq!(refusal(&call), 0, "k is not used");
    }
}

/// "13, the wanted byte is 0, tested directly after 11": only 0 is refused, whatever the tree's kinds.
#[test]
fn every_wanted_byte_but_none_passes() {
    let (road, query) = (damage::sound_road(), damage::sound_query());
    for version in VERSIONS {
        let tree = damage::sound_tree(version);
        for wanted in 0..=255 {
            let expected = if wanted == 0 { 13 } else { 0 };
            for asked in damage::ASKED {
                let call = damage::asked_of(asked, wanted, [&road, &tree, &query]);
                assert_eq!(refusal(&call), expected, "{wanted}");
            }
        }
    }
}

/// "The result area holds two words for each yard in the tree": of a tree with 256.
#[test]
fn a_drive_search_holds_every_yard() {
    let road = compare::generate::standard::road_book("grid", 1).unwrap();
    let yard = compare::generate::standard::yard_book(256, 1).unwrap();
    let mut tree = vec![0; AREA_BYTES];
    let built = build(&road, &yard, 1, 4, &mut [0; WORK_WORDS], &mut tree);
    tree.truncate(built.length as usize);
    let query = query::write(0, 1, u32::MAX, &[0]);
    for (words, expected) in [(2, 12), (511, 12), (512, 0), (515, 0)] {
        for seconds in [0, u32::MAX] {
            let books: [&[u8]; 3] = [&road, &tree, &query];
            let asked = Asked::Within(seconds);
            let number = search_refusal(asked, kinds::ALL, books, [WORK_WORDS, words]);
            assert_eq!(number, expected);
        }
    }
}

#[test]
fn greatest_counts_pass() {
    let road = compare::generate::standard::road_book("random", 1).unwrap();
    let first = compare::generate::standard::yard_book(256, 1).unwrap();
    let second = compare::generate::standard::kinds_yard_book(256, 1).unwrap();
    for (yard, needed) in [(first, 21_981), (second, 23_516)] {
        for (m, leaf_limit) in [(4, 1), (4, 256), (1, 256)] {
            for (area, expected) in [(needed - 1, 12), (needed, 0)] {
                let call = Call::Build {
                    road: road.clone(),
                    yard: yard.clone(),
                    m,
                    leaf_limit,
                    work: WORK_WORDS,
                    area,
                };
                assert_eq!(refusal(&call), expected);
            }
        }
    }
}

/// Any kinds, alone and together: 1 to 255 pass in both books.
#[test]
fn every_kind_byte_but_none_passes() {
    let road = damage::sound_road();
    for kinds in 0..=255 {
        let mut yards = damage::sound_yards(kinds::VERSION);
        yards[2].kinds = kinds;
        let yard = compare::yard::write_version(kinds::VERSION, &yards);
        let expected = if kinds == 0 { 5 } else { 0 };
        assert_eq!(refusal(&damage::build_of(&road, &yard)), expected);
        if kinds != 0 {
            let mut area = vec![0; KINDS_AREA_BYTES];
            let built = build(&road, &yard, 2, 2, &mut [0; WORK_WORDS], &mut area);
            area.truncate(built.length as usize);
            assert_eq!(refusal(&damage::check_of(&road, &yard, &area)), 0);
        }
    }
}

#[test]
fn any_bytes_are_answered() {
    let mut numbers = Numbers::new(12);
    for _ in 0..5_000 {
        let [road, yard, tree, query] = damage::damaged_books(&mut numbers);
        assert!(refusal(&damage::check_of(&road, &yard, &tree)) <= 12);
        assert!(refusal(&damage::build_of(&road, &yard)) <= 12);
        for call in damage::searches_of(&road, &tree, &query) {
            assert!(refusal(&call) <= 12);
        }
        compare::list::list(&[road, tree, query].concat());
    }
}

#[test]
fn random_fields_are_answered() {
    let mut numbers = Numbers::new(13);
    for _ in 0..5_000 {
        let [road, yard, tree, query] = [1, 2, 2, 1].map(|v| damage::random_book(&mut numbers, v));
        assert!(refusal(&damage::check_of(&road, &yard, &tree)) <= 12);
        let [sound, sound_yard, sound_tree, _] = damage::sound_books(1);
        assert!(refusal(&damage::check_of(&sound, &sound_yard, &tree)) <= 12);
        assert!(refusal(&damage::build_of(&sound, &yard)) <= 12);
        for call in damage::searches_of(&sound, &sound_tree, &query) {
            assert!(refusal(&call) <= 12);
        }
    }
}
