//! Build, then check, then read back.

use compare::build::{area_bytes, landmarks, KINDS_AREA_BYTES};
use compare::generate::district::{district, random_tree};
use compare::generate::{standard, Numbers};
use compare::refusal::WORK_WORDS;
use compare::road::{Distances, Road};
use compare::tree::{Entry, Stored, Tree};
use compare::yard::Yard;
use compare::{brute, build, check, kinds, road, tree, yard};

/// The built tree, in an area that held 7 everywhere.
fn built(road: &[u8], yard: &[u8], m: u32, leaf_limit: u32) -> Vec<u8> {
    let mut area = vec![7; KINDS_AREA_BYTES + 3];
    let mut work = vec![7; WORK_WORDS + 3];
    let built = build(road, yard, m, leaf_limit, &mut work, &mut area);
    assert_eq!(built.refusal, 0);
    let length = built.length as usize;
    assert!(area[length..].iter().all(|&byte| byte == 7));
    assert!(work[..WORK_WORDS].iter().all(|&word| word == 0));
    assert_eq!(work[WORK_WORDS..], [7; 3]);
    area.truncate(length);
    area
}

/// The refusal number of a check with a full work area.
fn checked(road: &[u8], yard: &[u8], tree: &[u8]) -> u32 {
    check(road, yard, tree, &mut [0; WORK_WORDS])
}

/// "A range is a leaf if it has no more yards than the limit", and not all of an inner region's yards are in one part.
fn assert_leaf_limit(tree: &Tree, leaf_limit: u32) {
    for region in &tree.regions {
        let few = u32::from(region.yards) <= leaf_limit;
        assert_eq!(region.is_leaf(), few);
        assert_ne!(region.children, 1);
    }
}

/// Every range is one of the cuts of all junctions.
fn assert_cuts(tree: &Tree, first: u32, after: u32, seen: &mut usize) {
    let regions = tree.regions.iter();
    *seen += regions
        .filter(|r| (u32::from(r.first), u32::from(r.after)) == (first, after))
        .count();
    let size = after - first;
    if size > 1 {
        for i in 0..4 {
            let (low, high) = (first + i * size / 4, first + (i + 1) * size / 4);
            if low < high && (low, high) != (first, after) {
                assert_cuts(tree, low, high, seen);
            }
        }
    }
}

#[test]
fn build_check_read() {
    let mut numbers = Numbers::new(1);
    for turn in 0..3_000 {
        let most = if turn % 50 == 0 { 300 } else { 40 };
        let d = district(&mut numbers, most);
        let m = numbers.between(1, 4) as u32;
        let leaf_limit = numbers.between(1, [2, 5, 256][turn % 3]) as u32;
        let book = built(&d.road, &d.yard, m, leaf_limit);
        assert_eq!(checked(&d.road, &d.yard, &book), 0);
        let tree = tree::read(&book, d.junctions).unwrap();
        assert_eq!(tree::write(&tree), book);
        assert_eq!(tree.yards_of(0), d.yards);
        assert_eq!(tree.version, d.book.version);
        assert_eq!(tree.yards_with_kinds(0), d.book.yards);
        assert_eq!((u32::from(tree.m), tree.junctions), (m, d.junctions));
        assert_leaf_limit(&tree, leaf_limit);
        let mut seen = 0;
        assert_cuts(&tree, 0, u32::from(d.junctions), &mut seen);
        assert_eq!(seen, tree.regions.len());
    }
}

#[test]
fn stored_values_by_brute_force() {
    let mut numbers = Numbers::new(2);
    for _ in 0..500 {
        let d = district(&mut numbers, 40);
        let roads = road::read(&d.road).unwrap();
        let all = brute::all_distances(&roads);
        let tree = tree::read(&built(&d.road, &d.yard, 3, 2), d.junctions).unwrap();
        for region in &tree.regions {
            let inside = |yard: &&Yard| (region.first..region.after).contains(&yard.junction);
            let yards: Vec<Yard> = d.book.yards.iter().filter(inside).copied().collect();
            let some_yard = |bit: u32| yards.iter().any(|yard| (yard.kinds >> bit) % 2 == 1);
            for bit in 0..8 {
                assert_eq!((region.kinds >> bit) % 2 == 1, some_yard(bit));
            }
            for landmark in &region.landmarks {
                let from = &all[usize::from(landmark.junction)];
                let entry = |yard: &Yard| Entry {
                    distance: from[usize::from(yard.junction)] as u32,
                    yard: yard.junction,
                    kinds: yard.kinds,
                };
                let mut list: Vec<Entry> = yards.iter().map(entry).collect();
                list.sort_by_key(|entry| (entry.distance, entry.yard));
                let (least, greatest) = (list[0].distance, list[list.len() - 1].distance);
                match &landmark.stored {
                    Stored::List(stored) => assert_eq!(*stored, list),
                    stored => assert_eq!(*stored, Stored::Span { least, greatest }),
                }
            }
        }
    }
}

#[test]
fn random_trees_pass() {
    let mut numbers = Numbers::new(3);
    for _ in 0..1_000 {
        let d = district(&mut numbers, 40);
        let roads = road::read(&d.road).unwrap();
        let tree = random_tree(&mut numbers, &roads, &d.book);
        assert_eq!(checked(&d.road, &d.yard, &tree::write(&tree)), 0);
    }
}

#[test]
fn least_distances_by_brute_force() {
    let mut numbers = Numbers::new(4);
    for _ in 0..500 {
        let d = district(&mut numbers, 60);
        let roads = road::read(&d.road).unwrap();
        let mut distances = Distances::new(&roads);
        for (from, row) in brute::all_distances(&roads).into_iter().enumerate() {
            let narrow: Vec<u32> = row.into_iter().map(|d| d as u32).collect();
            assert_eq!(distances.from(from as u16), narrow);
        }
    }
}

#[test]
fn landmarks_by_hand() {
    let road = |low, high| Road {
        low,
        high,
        seconds: 1,
    };
    let roads: Vec<Road> = (0..9).map(|low| road(low, low + 1)).collect();
    let chain = road::read(&road::write(10, &roads)).unwrap();
    assert_eq!(landmarks(&chain, 0, 10, 4), [0, 2, 5, 7]);
    assert_eq!(landmarks(&chain, 0, 10, 3), [0, 3, 6]);
    assert_eq!(landmarks(&chain, 0, 5, 4), [4, 4, 4, 4]);
    assert_eq!(landmarks(&chain, 2, 5, 4), [2, 2, 4, 4]);
    assert_eq!(landmarks(&chain, 2, 5, 3), [2, 2, 4]);
    assert_eq!(landmarks(&chain, 2, 5, 1), [2]);
}

#[test]
fn one_child_is_replaced() {
    let road = standard::road_book("chain", 1).unwrap();
    let book = built(&road, &yard::write(&[1_020, 1_023]), 1, 1);
    let tree = tree::read(&book, 1_024).unwrap();
    let ranges: Vec<(u16, u16)> = tree.regions.iter().map(|r| (r.first, r.after)).collect();
    assert_eq!(ranges, [(1_020, 1_024), (1_020, 1_021), (1_023, 1_024)]);
    let landmarks: Vec<u16> = tree
        .regions
        .iter()
        .map(|r| r.landmarks[0].junction)
        .collect();
    assert_eq!(landmarks, [1_020, 1_020, 1_023]);
}

#[test]
fn one_leaf_keeps_all_junctions() {
    let road = standard::road_book("ring", 1).unwrap();
    let book = built(&road, &yard::write(&[1_020, 1_023]), 4, 2);
    let tree = tree::read(&book, 1_024).unwrap();
    assert_eq!(tree.regions.len(), 1);
    assert_eq!((tree.regions[0].first, tree.regions[0].after), (0, 1_024));
}

#[test]
fn standard_books_pass() {
    for kind in standard::KINDS {
        for seed in [0, 1, u32::MAX] {
            let road = standard::road_book(kind, seed).unwrap();
            let roads = road::read(&road).unwrap();
            assert_eq!(roads.junctions, 1_024, "{kind}");
        }
        let road = standard::road_book(kind, 7).unwrap();
        for yards in [1, 100, 256] {
            let yard = standard::yard_book(yards, 7).unwrap();
            let book = built(&road, &yard, 4, 1);
            assert_eq!(checked(&road, &yard, &book), 0);
        }
    }
}

#[test]
fn the_greatest_tree() {
    let yards: Vec<u16> = (0..256).collect();
    let mut parts = Vec::new();
    for start in 0..128 {
        parts.push(4 * start);
        parts.push(4 * start + 1);
    }
    let road = standard::road_book("random", 3).unwrap();
    for yards in [yards, parts] {
        for version in [1, kinds::VERSION] {
            let yard = yard::write_version(version, &yard::of_all_kinds(&yards));
            let book = built(&road, &yard, 4, 1);
            assert!(book.len() <= area_bytes(version));
            assert_eq!(checked(&road, &yard, &book), 0);
        }
    }
    assert_eq!(
        standard::road_book("random", 3).unwrap().len(),
        9 + 6 * 4_096
    );
}

#[test]
fn grid_by_hand() {
    let roads = road::read(&standard::road_book("grid", 1).unwrap()).unwrap();
    assert_eq!(roads.roads.len(), 2 * 32 * 31);
    let first = Road {
        low: 0,
        high: 1,
        seconds: 1 + (1_015_568_748 / 131_072) as u16,
    };
    assert_eq!(roads.roads[0], first);
    assert_eq!((roads.roads[1].low, roads.roads[1].high), (0, 32));
    assert_eq!(standard::road_book("grid", 1).unwrap().len(), 11_913);
}
