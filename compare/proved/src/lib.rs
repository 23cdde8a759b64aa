//! The proved finder's calls, as `include/finder.h` declares them, on slices.

pub mod alike;
pub mod dispatch;
pub mod lent;
pub mod turns;

use compare::{Asked, Built, Found};

/// `struct finder_built`.
#[repr(C)]
struct FinderBuilt {
    refusal: u32,
    length: u32,
}

/// `struct finder_found`.
#[repr(C)]
struct FinderFound {
    refusal: u32,
    settled: u32,
    listed: u32,
    taken: u32,
    measured: u32,
}

extern "C" {
    fn finder_version() -> u32;

    fn finder_check(
        road: *const u8,
        road_len: usize,
        yard: *const u8,
        yard_len: usize,
        tree: *const u8,
        tree_len: usize,
        work: *mut u32,
        work_len: usize,
    ) -> u32;

    fn finder_build(
        road: *const u8,
        road_len: usize,
        yard: *const u8,
        yard_len: usize,
        m: u32,
        leaf_limit: u32,
        work: *mut u32,
        work_len: usize,
        tree: *mut u8,
        tree_len: usize,
    ) -> FinderBuilt;

    fn finder_search(
        road: *const u8,
        road_len: usize,
        tree: *const u8,
        tree_len: usize,
        query: *const u8,
        query_len: usize,
        wanted: u8,
        work: *mut u32,
        work_len: usize,
        results: *mut u32,
        results_len: usize,
    ) -> FinderFound;

    fn finder_within(
        road: *const u8,
        road_len: usize,
        tree: *const u8,
        tree_len: usize,
        query: *const u8,
        query_len: usize,
        wanted: u8,
        seconds: u32,
        work: *mut u32,
        work_len: usize,
        results: *mut u32,
        results_len: usize,
    ) -> FinderFound;
}

impl From<FinderFound> for Found {
    fn from(found: FinderFound) -> Self {
        Found {
            refusal: found.refusal,
            settled: found.settled,
            listed: found.listed,
            taken: found.taken,
            measured: found.measured,
        }
    }
}

/// The library's version as a number.
pub fn version() -> u32 {
    // SAFETY: it takes nothing, and reads nothing.
    unsafe { finder_version() }
}

/// The refusal number, 0 if accepted.
pub fn check(road: &[u8], yard: &[u8], tree: &[u8], work: &mut [u32]) -> u32 {
    // SAFETY: a slice's pointer is not null and is aligned, the slices live through the call, and nothing overlaps the unique one.
    unsafe {
        finder_check(
            road.as_ptr(),
            road.len(),
            yard.as_ptr(),
            yard.len(),
            tree.as_ptr(),
            tree.len(),
            work.as_mut_ptr(),
            work.len(),
        )
    }
}

/// The refusal number and the tree's length.
pub fn build(
    road: &[u8],
    yard: &[u8],
    m: u32,
    leaf_limit: u32,
    work: &mut [u32],
    area: &mut [u8],
) -> Built {
    // SAFETY: as for `check`; the two unique slices don't overlap either.
    let built = unsafe {
        finder_build(
            road.as_ptr(),
            road.len(),
            yard.as_ptr(),
            yard.len(),
            m,
            leaf_limit,
            work.as_mut_ptr(),
            work.len(),
            area.as_mut_ptr(),
            area.len(),
        )
    };
    Built {
        refusal: built.refusal,
        length: built.length,
    }
}

/// The refusal number, whether settled, and the numbers of yards listed, steps taken and yards measured, for yards of
/// the wanted kinds.
pub fn search(
    road: &[u8],
    tree: &[u8],
    query: &[u8],
    wanted: u8,
    work: &mut [u32],
    results: &mut [u32],
) -> Found {
    // SAFETY: as for `build`.
    let found = unsafe {
        finder_search(
            road.as_ptr(),
            road.len(),
            tree.as_ptr(),
            tree.len(),
            query.as_ptr(),
            query.len(),
            wanted,
            work.as_mut_ptr(),
            work.len(),
            results.as_mut_ptr(),
            results.len(),
        )
    };
    found.into()
}

/// The same of a drive search, for all yards within so many seconds.
pub fn within(
    road: &[u8],
    tree: &[u8],
    query: &[u8],
    wanted: u8,
    seconds: u32,
    work: &mut [u32],
    results: &mut [u32],
) -> Found {
    // SAFETY: as for `build`.
    let found = unsafe {
        finder_within(
            road.as_ptr(),
            road.len(),
            tree.as_ptr(),
            tree.len(),
            query.as_ptr(),
            query.len(),
            wanted,
            seconds,
            work.as_mut_ptr(),
            work.len(),
            results.as_mut_ptr(),
            results.len(),
        )
    };
    found.into()
}

/// The search that is asked for, for yards of the wanted kinds.
pub fn ask(
    asked: Asked,
    wanted: u8,
    [road, tree, query]: [&[u8]; 3],
    work: &mut [u32],
    results: &mut [u32],
) -> Found {
    match asked {
        Asked::FirstK => search(road, tree, query, wanted, work, results),
        Asked::Within(seconds) => within(road, tree, query, wanted, seconds, work, results),
    }
}
