//! Sound books with a few values changed, so that the later tests of a book are reached too.

use super::Numbers;
use crate::kinds;
use crate::query;
use crate::road::{self, Road};
use crate::tree::{self, Entry, Region, Stored, Tree, MOST_DISTANCE};
use crate::yard::{self, YardBook};

/// A road book with one to three of its roads dropped, changed, exchanged or repeated.
pub fn changed_road(numbers: &mut Numbers, junctions: u16, roads: &[Road]) -> Vec<u8> {
    let mut roads = roads.to_vec();
    let mut junctions = junctions;
    for _ in 0..numbers.between(1, 3) {
        if roads.is_empty() || numbers.once_in(12) {
            junctions = junctions.saturating_add(1);
            continue;
        }
        let place = below(numbers, roads.len());
        match numbers.between(0, 6) {
            0..=2 => drop(roads.remove(place)),
            3 => roads[place].seconds = numbers.between16(0, 3),
            4 => roads[place].high = near(numbers, roads[place].high),
            5 => roads[place].low = near(numbers, roads[place].low),
            _ => roads.insert(place, roads[place]),
        }
    }
    road::write(junctions, &roads)
}

/// A yard book with one or two of its yards dropped, moved, repeated or of other kinds, or in another version.
pub fn changed_yard(numbers: &mut Numbers, book: &YardBook) -> Vec<u8> {
    let mut version = book.version;
    let mut yards = book.yards.clone();
    for _ in 0..numbers.between(1, 2) {
        if yards.is_empty() {
            break;
        }
        let place = below(numbers, yards.len());
        match numbers.between(0, 7) {
            0 => drop(yards.remove(place)),
            1 => yards.insert(place, yards[place]),
            2 => {
                let mut last = yards[yards.len() - 1];
                last.junction = last.junction.saturating_add(1);
                yards.push(last);
            }
            3 => version = other_version(numbers, version),
            4 | 5 => yards[place].kinds = other_kinds(numbers, yards[place].kinds),
            _ => yards[place].junction = near(numbers, yards[place].junction),
        }
    }
    yard::write_version(version, &yards)
}

/// A tree book with one or two changes in its header or its regions.
pub fn changed_tree(numbers: &mut Numbers, tree: &Tree) -> Vec<u8> {
    let mut tree = tree.clone();
    for _ in 0..numbers.between(1, 2) {
        match numbers.between(0, 9) {
            0 => change_header(numbers, &mut tree),
            1 => change_order(numbers, &mut tree),
            2 => lose_yard(numbers, &mut tree),
            _ => {
                let place = below(numbers, tree.regions.len());
                change_region(numbers, &mut tree.regions[place]);
            }
        }
    }
    tree::write(&tree)
}

/// A query book for a district of so many junctions, with its aggregate, its k, its crews' number or their junctions at or outside a limit.
pub fn changed_query(numbers: &mut Numbers, junctions: u16) -> Vec<u8> {
    let aggregate = numbers.between(0, 2) as u8;
    let k = [0, 1, 64, 65][below(numbers, 4)];
    let count = [0, 1, 16, 17][below(numbers, 4)];
    let most = junctions - u16::from(numbers.once_in(2));
    let crews: Vec<u16> = (0..count).map(|_| numbers.between16(0, most)).collect();
    query::write(aggregate, k, 1_000, &crews)
}

/// Another version, junction, yard or landmark count.
fn change_header(numbers: &mut Numbers, tree: &mut Tree) {
    match numbers.between(0, 4) {
        0 => tree.m = numbers.between(0, 5) as u8,
        1 => tree.yards = near(numbers, tree.yards),
        2 => tree.version = other_version(numbers, tree.version),
        _ => tree.junctions = near(numbers, tree.junctions),
    }
}

/// Two regions exchanged, or one dropped or repeated.
fn change_order(numbers: &mut Numbers, tree: &mut Tree) {
    let count = tree.regions.len();
    let (one, other) = (below(numbers, count), below(numbers, count));
    match numbers.between(0, 2) {
        0 => tree.regions.swap(one, other),
        1 if count > 1 => drop(tree.regions.remove(one)),
        _ => tree.regions.insert(one, tree.regions[other].clone()),
    }
}

/// A leaf's yard leaves the whole tree, or bears another number in it: its shape may stay sound.
fn lose_yard(numbers: &mut Numbers, tree: &mut Tree) {
    let leaf = below(numbers, tree.regions.len());
    let first = tree.regions[leaf].landmarks.first();
    let Some(&Entry { yard, .. }) = first.and_then(|l| l.list().first()) else {
        return;
    };
    let leaves = numbers.once_in(2) && tree.regions[leaf].yards > 1;
    let other = near(numbers, yard);
    for landmark in &mut tree.regions[leaf].landmarks {
        let Stored::List(list) = &mut landmark.stored else {
            continue;
        };
        if leaves {
            list.retain(|entry| entry.yard != yard);
        } else {
            list.iter_mut()
                .filter(|entry| entry.yard == yard)
                .for_each(|entry| entry.yard = other);
        }
    }
    if leaves {
        let holds = |region: &&mut Region| (region.first..region.after).contains(&yard);
        tree.regions
            .iter_mut()
            .filter(holds)
            .for_each(|region| region.yards -= 1);
        tree.yards -= 1;
    }
}

/// One value of a region.
fn change_region(numbers: &mut Numbers, region: &mut Region) {
    match numbers.between(0, 10) {
        10 => region.kinds = other_kinds(numbers, region.kinds),
        0 => region.first = near(numbers, region.first),
        1 => region.after = near(numbers, region.after),
        2 => region.children = numbers.between(0, 5) as u8,
        3 => region.yards = near(numbers, region.yards),
        _ if region.landmarks.is_empty() => (),
        place => {
            let landmark = below(numbers, region.landmarks.len());
            let landmark = &mut region.landmarks[landmark];
            if place == 4 {
                landmark.junction = near(numbers, landmark.junction);
            } else {
                change_stored(numbers, &mut landmark.stored);
            }
        }
    }
}

/// One stored value: a distance, a yard, its kinds, a least or a greatest.
fn change_stored(numbers: &mut Numbers, stored: &mut Stored) {
    match stored {
        Stored::List(list) if list.is_empty() => (),
        Stored::List(list) => {
            let place = below(numbers, list.len());
            let entry = &mut list[place];
            match numbers.between(0, 5) {
                0 => entry.yard = near(numbers, entry.yard),
                1 => entry.distance = MOST_DISTANCE + numbers.between(0, 1) as u32,
                2 | 3 => entry.kinds = other_kinds(numbers, entry.kinds),
                _ => entry.distance = near_distance(numbers, entry.distance),
            }
        }
        Stored::Span { least, greatest } => match numbers.between(0, 3) {
            0 => *least = near_distance(numbers, *least),
            1 => *greatest = near_distance(numbers, *greatest),
            2 => (*least, *greatest) = (*greatest, *least),
            _ => *greatest = u32::MAX,
        },
    }
}

/// None of the kinds, or a bit more or less.
fn other_kinds(numbers: &mut Numbers, kinds: u8) -> u8 {
    match numbers.between(0, 2) {
        0 => 0,
        _ => kinds ^ (1 << numbers.between(0, 7)),
    }
}

/// The other version, with kinds or without, or at times one that no book has.
fn other_version(numbers: &mut Numbers, version: u8) -> u8 {
    match numbers.between(0, 4) {
        0 => 0,
        1 => kinds::VERSION + 1,
        _ => kinds::VERSION + 1 - version.min(kinds::VERSION),
    }
}

/// A place in a list of so many.
fn below(numbers: &mut Numbers, count: usize) -> usize {
    numbers.between(0, count as u64 - 1) as usize
}

/// One more, one less or, seldom, any value.
fn near(numbers: &mut Numbers, value: u16) -> u16 {
    match numbers.between(0, 8) {
        0 => numbers.any() as u16,
        1..=4 => value.wrapping_add(1),
        _ => value.wrapping_sub(1),
    }
}

/// One more or one less.
fn near_distance(numbers: &mut Numbers, value: u32) -> u32 {
    if numbers.once_in(2) {
        value.wrapping_add(1)
    } else {
        value.saturating_sub(1)
    }
}
