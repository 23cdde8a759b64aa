//! Kinds of yard: version 1 books beside version 2 books, false kind bytes, and what kinds change of a search.

use compare::build::KINDS_AREA_BYTES;
use compare::generate::call::seconds;
use compare::generate::district::{
    district, false_tree, query_book, random_tree, wanted, District,
};
use compare::generate::Numbers;
use compare::kinds::{self, ALL};
use compare::refusal::WORK_WORDS;
use compare::tree::{Stored, Tree};
use compare::yard::{self, Yard};
use compare::{ask, brute, build, check, query, road, search, tree, Asked, Found};

/// The tree that build gives; the areas are full for any version.
fn built(road: &[u8], yard: &[u8], [m, leaf_limit]: [u32; 2]) -> Vec<u8> {
    let mut area = vec![0; KINDS_AREA_BYTES];
    let work = &mut [0; WORK_WORDS];
    let built = build(road, yard, m, leaf_limit, work, &mut area);
    assert_eq!(built.refusal, 0);
    area.truncate(built.length as usize);
    area
}

/// The refusal number of a check with a full work area.
fn checked(road: &[u8], yard: &[u8], tree: &[u8]) -> u32 {
    check(road, yard, tree, &mut [0; WORK_WORDS])
}

/// What a search answers, and its areas after it.
fn answered(asked: Asked, wanted: u8, books: [&[u8]; 3]) -> (Found, Vec<u32>, Vec<u32>) {
    let (mut work, mut results) = (vec![7; WORK_WORDS + 1], vec![7; 130]);
    let found = ask(asked, wanted, books, &mut work, &mut results);
    (found, work, results)
}

/// Some m and leaf limit.
fn parameters(numbers: &mut Numbers) -> [u32; 2] {
    [4, 6].map(|most| numbers.between(1, most) as u32)
}

/// A query book, and both searches that can be asked with it.
fn some_query(numbers: &mut Numbers, d: &District) -> (Vec<u8>, [Asked; 2]) {
    let book = query_book(numbers, d.junctions);
    let roads = road::read(&d.road).unwrap();
    let drive = seconds(numbers, &roads, &d.yards, &book);
    (book, [Asked::FirstK, Asked::Within(drive)])
}

/// The same tree as a book of this version.
fn in_version(tree: &Tree, version: u8) -> Vec<u8> {
    tree::write(&Tree {
        version,
        ..tree.clone()
    })
}

/// Every kind byte of a tree: each region's, and each entry's of each list.
fn kind_bytes(tree: &mut Tree) -> Vec<&mut u8> {
    let mut bytes = Vec::new();
    for region in &mut tree.regions {
        bytes.push(&mut region.kinds);
        for landmark in &mut region.landmarks {
            if let Stored::List(list) = &mut landmark.stored {
                bytes.extend(list.iter_mut().map(|entry| &mut entry.kinds));
            }
        }
    }
    bytes
}

/// "Version 1 books are read with kind 255 throughout, and a build writes its yard book's version": the tree of a
/// version 2 yard book with 255 throughout is the version 1 tree with kind bytes, and each passes beside both.
#[test]
fn versions_build_and_check_alike() {
    let mut numbers = Numbers::new(41);
    for _ in 0..1_000 {
        let d = district(&mut numbers, 40);
        let yards = [1, kinds::VERSION]
            .map(|version| yard::write_version(version, &yard::of_all_kinds(&d.yards)));
        let parameters = parameters(&mut numbers);
        let [first, second] = yards.each_ref().map(|y| built(&d.road, y, parameters));
        let tree = tree::read(&first, d.junctions).unwrap();
        assert_eq!(in_version(&tree, 1), first);
        assert_eq!(in_version(&tree, kinds::VERSION), second);
        let entries = usize::from(tree.m) * d.yards.len();
        assert_eq!(second.len(), first.len() + tree.regions.len() + entries);
        for yard in &yards {
            for tree in [&first, &second] {
                assert_eq!(checked(&d.road, yard, tree), 0);
            }
        }
    }
}

/// Version 1 with any kinds wanted answers as version 2 with 255 throughout, on false trees too.
#[test]
fn versions_are_searched_alike() {
    let mut numbers = Numbers::new(42);
    for _ in 0..2_000 {
        let d = district(&mut numbers, 40);
        let roads = road::read(&d.road).unwrap();
        let mut tree = random_tree(&mut numbers, &roads, &d.book);
        kind_bytes(&mut tree)
            .into_iter()
            .for_each(|byte| *byte = ALL);
        tree.version = 1;
        if numbers.once_in(2) {
            tree = false_tree(&mut numbers, &tree);
        }
        let trees = [1, kinds::VERSION].map(|version| in_version(&tree, version));
        let (query, asks) = some_query(&mut numbers, &d);
        for wanted in [ALL, 1, wanted(&mut numbers)] {
            for asked in asks {
                let [one, other] = trees
                    .each_ref()
                    .map(|tree| answered(asked, wanted, [&d.road, tree, &query]));
                assert_eq!(one, other);
                assert_eq!(one.0.refusal == 13, wanted == 0);
            }
        }
    }
}

/// "a version 1 tree beside a version 2 yard book passes only where every kind byte is 255", and the other way round.
#[test]
fn versions_pass_beside_255_alone() {
    let mut numbers = Numbers::new(43);
    let mut seen = [0; 2];
    for _ in 0..1_000 {
        let d = district(&mut numbers, 20);
        let first = yard::write(&d.yards);
        let second = yard::write_version(kinds::VERSION, &d.book.yards);
        let all = d.book.yards.iter().all(|yard| yard.kinds == ALL);
        let expected = if all { 0 } else { 9 };
        let parameters = parameters(&mut numbers);
        let tree = built(&d.road, &first, parameters);
        assert_eq!(checked(&d.road, &second, &tree), expected);
        let tree = built(&d.road, &second, parameters);
        assert_eq!(checked(&d.road, &first, &tree), expected);
        assert_eq!(checked(&d.road, &second, &tree), 0);
        seen[usize::from(all)] += 1;
    }
    assert!(seen.iter().all(|&count| count >= 100), "{seen:?}");
}

/// "a false kind byte in a tree fails the check by 9", "A kind byte of 0 in a tree is refused by 5": every other byte
/// at every place.
#[test]
fn every_other_kind_byte() {
    let mut numbers = Numbers::new(44);
    for _ in 0..25 {
        let d = district(&mut numbers, 8);
        let roads = road::read(&d.road).unwrap();
        let mut tree = random_tree(&mut numbers, &roads, &d.book);
        tree.version = kinds::VERSION;
        let yard = yard::write_version(kinds::VERSION, &d.book.yards);
        for place in 0..kind_bytes(&mut tree).len() {
            for byte in 0..=255 {
                let mut other = tree.clone();
                let was = std::mem::replace(kind_bytes(&mut other)[place], byte);
                let expected = match byte {
                    0 => 5,
                    byte if byte == was => 0,
                    _ => 9,
                };
                let book = tree::write(&other);
                assert_eq!(checked(&d.road, &yard, &book), expected);
            }
        }
    }
}

/// A tree of the same shape whose kind bytes are 1 where they share a wanted bit, and 2 where they don't.
fn told_apart(tree: &Tree, wanted: u8) -> Tree {
    let mut tree = tree.clone();
    for byte in kind_bytes(&mut tree) {
        *byte = if kinds::share(*byte, wanted) { 1 } else { 2 };
    }
    tree
}

/// A search goes by which bytes share a wanted bit and by nothing else of them, on false trees too.
#[test]
fn only_shared_bits_matter() {
    let mut numbers = Numbers::new(45);
    for _ in 0..2_000 {
        let d = district(&mut numbers, 40);
        let roads = road::read(&d.road).unwrap();
        let mut tree = random_tree(&mut numbers, &roads, &d.book);
        tree.version = kinds::VERSION;
        let tree = false_tree(&mut numbers, &tree);
        let wanted = wanted(&mut numbers).max(1);
        let (query, asks) = some_query(&mut numbers, &d);
        let (book, apart) = (tree::write(&tree), tree::write(&told_apart(&tree, wanted)));
        for asked in asks {
            let one = answered(asked, wanted, [&d.road, &book, &query]);
            assert_eq!(one, answered(asked, 1, [&d.road, &apart, &query]));
        }
    }
}

/// "a yard is wanted if its byte in its leaf's first list shares a bit": the other lists' bytes change no search.
#[test]
fn later_lists_never_matter() {
    let mut numbers = Numbers::new(46);
    let mut other_lists = 0;
    for _ in 0..1_000 {
        let d = district(&mut numbers, 30);
        let roads = road::read(&d.road).unwrap();
        let mut tree = random_tree(&mut numbers, &roads, &d.book);
        tree.version = kinds::VERSION;
        let mut other = tree.clone();
        for landmark in other
            .regions
            .iter_mut()
            .flat_map(|r| r.landmarks.iter_mut().skip(1))
        {
            if let Stored::List(list) = &mut landmark.stored {
                list.iter_mut()
                    .for_each(|entry| entry.kinds = numbers.between(1, 255) as u8);
            }
        }
        let (query, asks) = some_query(&mut numbers, &d);
        let wanted = wanted(&mut numbers);
        let trees = [&tree, &other].map(tree::write);
        for asked in asks {
            let [one, two] = trees
                .each_ref()
                .map(|tree| answered(asked, wanted, [&d.road, tree, &query]));
            assert_eq!(one, two);
        }
        other_lists += u32::from(tree != other);
    }
    assert!(other_lists >= 500, "{other_lists}");
}

/// What a search for the first k yards lists, with steps enough, and its answer.
fn listed(road: &[u8], tree: &[u8], query: &[u8], wanted: u8) -> (Vec<u32>, Found) {
    let (work, results) = (&mut [0; WORK_WORDS], &mut [0; 128]);
    let found = search(road, tree, query, wanted, work, results);
    assert_eq!((found.refusal, found.settled), (0, 1));
    (results[..2 * found.listed as usize].to_vec(), found)
}

/// The same words by brute force over the wanted yards.
fn by_brute_force(d: &District, tree: &[u8], query: &[u8], wanted: u8) -> Vec<u32> {
    let road = road::read(&d.road).unwrap();
    let tree = tree::read(tree, d.junctions).unwrap();
    let query = query::read(query, d.junctions).unwrap();
    let ranked = brute::list(Asked::FirstK, wanted, &road, &tree, &query);
    let words = |&(distance, yard): &(u64, u16)| [u32::from(yard), distance as u32];
    ranked.iter().flat_map(words).collect()
}

/// "Completeness, order and the settling limit's yards now concern wanted yards": the list is that of a search on a
/// tree of the wanted yards alone, and brute force's over them.
#[test]
fn as_if_only_wanted_yards_were_there() {
    let mut numbers = Numbers::new(47);
    let mut seen = [0; 2];
    for _ in 0..2_000 {
        let d = district(&mut numbers, 40);
        let tree = built(&d.road, &d.yard, parameters(&mut numbers));
        let wanted = wanted(&mut numbers).max(1);
        let mut query = query_book(&mut numbers, d.junctions);
        query[7..11].fill(255);
        let (list, found) = listed(&d.road, &tree, &query, wanted);
        assert_eq!(list, by_brute_force(&d, &tree, &query, wanted));
        let shares = |yard: &&Yard| kinds::share(yard.kinds, wanted);
        let yards: Vec<Yard> = d.book.yards.iter().filter(shares).copied().collect();
        seen[usize::from(yards.is_empty())] += 1;
        if yards.is_empty() {
            assert_eq!((found.listed, found.taken, found.measured), (0, 0, 0));
            continue;
        }
        let alone = yard::write_version(kinds::VERSION, &yards);
        let alone = built(&d.road, &alone, parameters(&mut numbers));
        assert_eq!(list, listed(&d.road, &alone, &query, ALL).0);
    }
    assert!(seen.iter().all(|&count| count >= 100), "{seen:?}");
}
