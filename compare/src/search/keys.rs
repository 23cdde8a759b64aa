//! The yards' keys without a run, and which yards are worth measuring.

use super::bound::{picked, region_bound, yard_bound};
use super::{Asked, Search};
use crate::tree::Entry;

/// A wanted yard and its key. "One step takes the least key; at equal keys [...] lower number first": the order of the
/// fields is this order, which is also the one in which yards are measured.
#[derive(Clone, Copy, Debug, PartialEq, Eq, PartialOrd, Ord)]
pub struct Keyed {
    pub key: u64,
    pub yard: u16,
}

/// The keys of all of a tree's wanted yards, in order. They follow from the tree, the roads and the query; no step is
/// taken. In a tree that check refuses by 9 a yard below a region that lacks its bits has a key too.
pub fn keys(search: &Search) -> Vec<Keyed> {
    let mut keys = keys_below(search, 0, 0);
    keys.sort_unstable();
    keys
}

/// The keys of a region's wanted yards. The greatest bound of the regions above it is given: "A region's key is the
/// greater of this and its parent's key", so that a leaf's first key is the greatest bound on the way from the root.
fn keys_below(search: &Search, number: usize, above: u64) -> Vec<Keyed> {
    let greatest = region_bound(search, number).max(above);
    if search.tree.regions[number].is_leaf() {
        return keys_in_leaf(search, number, greatest);
    }
    let children = search.tree.children(number).into_iter();
    let keys = children.flat_map(|child| keys_below(search, child, greatest));
    keys.collect()
}

/// "Its key [the yard's] is the greater of its bound and the leaf's first key": of a leaf's wanted yards, by place.
pub fn keys_in_leaf(search: &Search, number: usize, first_key: u64) -> Vec<Keyed> {
    let leaf = picked(search, number);
    let keyed = |entry: &&Entry| {
        let bound = yard_bound(search, &leaf.crew_values, entry.distance, entry.yard);
        Keyed {
            key: first_key.max(u64::from(bound)),
            yard: entry.yard,
        }
    };
    leaf.wanted.iter().map(keyed).collect()
}

/// The greatest key worth measuring when a search has settled with this list of (distance, yard) pairs: "the last
/// listed distance", and none is too great "when the list is short of k"; of a drive search, the seconds.
pub fn greatest_worth(search: &Search, list: &[(u64, u16)]) -> Option<u64> {
    match search.asked {
        Asked::FirstK => list.get(search.query.k - 1).map(|listed| listed.0),
        Asked::Within(seconds) => Some(u64::from(seconds)),
    }
}

/// "the measured yards are exactly the wanted yards whose key is not above the last listed distance, or all wanted
/// yards when the list is short of k": these, of all wanted yards in order of their keys.
pub fn worth_measuring(keys: &[Keyed], greatest_worth: Option<u64>) -> &[Keyed] {
    let not_above = |keyed: &Keyed| greatest_worth.is_none_or(|greatest| keyed.key <= greatest);
    &keys[..keys.partition_point(not_above)]
}
