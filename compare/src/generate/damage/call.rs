//! Calls: accepted ones, and every cause of a refusal in every call that it reaches.

use super::query::queries;
use super::road::roads;
use super::sound::{
    chain, sound_books, sound_query, sound_road, sound_tree, sound_yard, sound_yards, ASKED, K,
    SECONDS, VERSIONS, YARDS,
};
use super::tree::trees;
use super::untrue::false_trees;
use super::yard::yards;
use super::Damage;
use crate::build::{area_bytes, AREA_BYTES};
use crate::kinds;
use crate::refusal::WORK_WORDS;
use crate::road::{self, Road};
use crate::search::Asked;
use crate::yard::{self, Yard};

/// A call with all that it is given; areas by their lengths.
#[derive(Clone)]
pub enum Call {
    Check {
        road: Vec<u8>,
        yard: Vec<u8>,
        tree: Vec<u8>,
        work: usize,
    },
    Build {
        road: Vec<u8>,
        yard: Vec<u8>,
        m: u32,
        leaf_limit: u32,
        work: usize,
        area: usize,
    },
    Search {
        asked: Asked,
        wanted: u8,
        road: Vec<u8>,
        tree: Vec<u8>,
        query: Vec<u8>,
        work: usize,
        results: usize,
    },
}

/// A call, why it is refused, and by which number.
pub struct Case {
    pub cause: String,
    pub refusal: u32,
    pub call: Call,
}

impl Case {
    /// A case with its cause.
    fn new(refusal: u32, cause: &str, call: Call) -> Self {
        let cause = cause.to_string();
        Case {
            cause,
            refusal,
            call,
        }
    }

    /// A case of a damaged book.
    fn of(damage: &Damage, call: Call) -> Self {
        Case::new(damage.refusal, &damage.cause, call)
    }
}

/// Every damaged book in every call that reads it, then the damages of more than one book or of no book.
pub fn cases() -> Vec<Case> {
    let mut cases = Vec::new();
    for version in VERSIONS {
        cases.extend(damaged_roads_and_queries(version));
        cases.extend(disagreeing(version));
        cases.extend(parameters(version));
        cases.extend(nothing_wanted(version));
        cases.extend(short_areas(version));
    }
    cases.extend(damaged_yards_and_trees());
    cases.extend(other_kinds());
    cases
}

/// Damaged road and query books beside sound books of a version.
fn damaged_roads_and_queries(version: u8) -> Vec<Case> {
    let [road, yard, tree, query] = sound_books(version);
    let mut cases = Vec::new();
    for d in roads() {
        cases.push(Case::of(&d, check_of(&d.book, &yard, &tree)));
        cases.push(Case::of(&d, build_of(&d.book, &yard)));
        let calls = searches_of(&d.book, &tree, &query);
        cases.extend(calls.map(|call| Case::of(&d, call)));
    }
    for d in queries() {
        let calls = searches_of(&road, &tree, &d.book);
        cases.extend(calls.map(|call| Case::of(&d, call)));
    }
    cases
}

/// Damaged and untrue yard and tree books beside sound books of their version.
fn damaged_yards_and_trees() -> Vec<Case> {
    let (road, query) = (sound_road(), sound_query());
    let mut cases = Vec::new();
    for d in yards() {
        let tree = sound_tree(d.version);
        cases.push(Case::of(&d, check_of(&road, &d.book, &tree)));
        cases.push(Case::of(&d, build_of(&road, &d.book)));
    }
    for d in trees() {
        let yard = sound_yard(d.version);
        cases.push(Case::of(&d, check_of(&road, &yard, &d.book)));
        let calls = searches_of(&road, &d.book, &query);
        cases.extend(calls.map(|call| Case::of(&d, call)));
    }
    for d in false_trees() {
        let yard = sound_yard(d.version);
        cases.push(Case::of(&d, check_of(&road, &yard, &d.book)));
    }
    cases
}

/// A check with a full work area.
pub fn check_of(road: &[u8], yard: &[u8], tree: &[u8]) -> Call {
    Call::Check {
        road: road.to_vec(),
        yard: yard.to_vec(),
        tree: tree.to_vec(),
        work: WORK_WORDS,
    }
}

/// A build with areas that are full for the yard book's version.
pub fn build_of(road: &[u8], yard: &[u8]) -> Call {
    Call::Build {
        road: road.to_vec(),
        yard: yard.to_vec(),
        m: 2,
        leaf_limit: 2,
        work: WORK_WORDS,
        area: yard
            .get(4)
            .map_or(AREA_BYTES, |&version| area_bytes(version)),
    }
}

/// A search for k yards of any kind, with full areas.
pub fn search_of(road: &[u8], tree: &[u8], query: &[u8]) -> Call {
    asked_of(Asked::FirstK, kinds::ALL, [road, tree, query])
}

/// A drive search for yards of any kind, with full areas.
pub fn within_of(seconds: u32, road: &[u8], tree: &[u8], query: &[u8]) -> Call {
    asked_of(Asked::Within(seconds), kinds::ALL, [road, tree, query])
}

/// A search of each kind for yards of any kind, with full areas.
pub fn searches_of(road: &[u8], tree: &[u8], query: &[u8]) -> [Call; 2] {
    ASKED.map(|asked| asked_of(asked, kinds::ALL, [road, tree, query]))
}

/// A search for yards of the wanted kinds, with areas that are full beside the sound tree and query.
pub fn asked_of(asked: Asked, wanted: u8, [road, tree, query]: [&[u8]; 3]) -> Call {
    let listed = match asked {
        Asked::FirstK => usize::from(K),
        Asked::Within(_) => YARDS.len(),
    };
    Call::Search {
        asked,
        wanted,
        road: road.to_vec(),
        tree: tree.to_vec(),
        query: query.to_vec(),
        work: WORK_WORDS,
        results: 2 * listed,
    }
}

/// Sound books that disagree: "Junction counts or yards disagree between books".
fn disagreeing(version: u8) -> Vec<Case> {
    let (road, tree, query) = (sound_road(), sound_tree(version), sound_query());
    let mut roads = chain();
    roads.push(Road {
        low: 15,
        high: 16,
        seconds: 1,
    });
    let longer = road::write(17, &roads);
    let checked = check_of(&longer, &sound_yard(version), &tree);
    let mut cases = vec![Case::new(8, "a junction more", checked)];
    let calls = searches_of(&longer, &tree, &query);
    cases.extend(calls.map(|call| Case::new(8, "a junction more", call)));
    for (cause, junctions) in [
        ("a yard missing", &[1, 2, 5, 6][..]),
        ("a yard more", &[1, 2, 3, 5, 6, 14]),
        ("another yard", &[1, 2, 5, 7, 14]),
    ] {
        let yard = |&junction: &u16| Yard { junction, kinds: 1 };
        let yards: Vec<Yard> = junctions.iter().map(yard).collect();
        let yard = yard::write_version(version, &yards);
        cases.push(Case::new(8, cause, check_of(&road, &yard, &tree)));
    }
    cases
}

/// Yard books that give a tree's yards other kinds: "a false kind byte in a tree fails the check by 9". "Version 1
/// books are read with kind 255 throughout": beside version 2 books with any other kind byte they are false.
fn other_kinds() -> Vec<Case> {
    let road = sound_road();
    let [first, second] = VERSIONS.map(sound_yard);
    let [first_tree, second_tree] = VERSIONS.map(sound_tree);
    let mut cases = vec![
        Case::new(
            9,
            "a version 1 tree beside kinds",
            check_of(&road, &second, &first_tree),
        ),
        Case::new(
            9,
            "a tree with kinds beside version 1 yards",
            check_of(&road, &first, &second_tree),
        ),
    ];
    for place in 0..YARDS.len() {
        for version in VERSIONS {
            let mut yards = sound_yards(version);
            yards[place].kinds ^= 64;
            let yard = yard::write_version(kinds::VERSION, &yards);
            let cause = format!("yard {} has another bit", YARDS[place]);
            let call = check_of(&road, &yard, &sound_tree(version));
            cases.push(Case::new(9, &cause, call));
        }
    }
    cases
}

/// Builds with m or the leaf limit out of range.
fn parameters(version: u8) -> Vec<Case> {
    let values = [
        (0, 2),
        (5, 2),
        (u32::MAX, 2),
        (2, 0),
        (2, 257),
        (2, u32::MAX),
    ];
    let case = |(m, leaf_limit)| {
        let call = Call::Build {
            road: sound_road(),
            yard: sound_yard(version),
            m,
            leaf_limit,
            work: 0,
            area: 0,
        };
        Case::new(11, &format!("m {m}, leaf limit {leaf_limit}"), call)
    };
    values.into_iter().map(case).collect()
}

/// "13, the wanted byte is 0, tested directly after 11": with full areas and with none.
fn nothing_wanted(version: u8) -> Vec<Case> {
    let (road, tree, query) = (sound_road(), sound_tree(version), sound_query());
    let mut cases = Vec::new();
    for asked in ASKED {
        let mut call = asked_of(asked, 0, [&road, &tree, &query]);
        cases.push(Case::new(13, "nothing wanted", call.clone()));
        if let Call::Search { work, results, .. } = &mut call {
            (*work, *results) = (0, 0);
        }
        cases.push(Case::new(13, "nothing wanted, no areas", call));
    }
    cases
}

/// Calls with an area too short: the length needed less one, and none.
fn short_areas(version: u8) -> Vec<Case> {
    let mut cases = Vec::new();
    for short in [0, WORK_WORDS - 1] {
        for mut call in accepted(version) {
            match &mut call {
                Call::Check { work, .. } => *work = short,
                Call::Build { work, .. } => *work = short,
                Call::Search { work, .. } => *work = short,
            }
            cases.push(Case::new(12, "work area", call));
        }
    }
    for mut call in accepted(version) {
        match &mut call {
            Call::Check { .. } => continue,
            Call::Build { area, .. } => *area -= 1,
            Call::Search { results, .. } => *results -= 1,
        }
        cases.push(Case::new(12, "tree or result area", call));
    }
    cases.extend(short_drives(version));
    if kinds::size(version) > 0 {
        let mut call = build_of(&sound_road(), &sound_yard(version));
        if let Call::Build { area, .. } = &mut call {
            *area = AREA_BYTES;
        }
        cases.push(Case::new(12, "a version 1 build's area", call));
    }
    cases
}

/// Drive searches with result words for fewer yards than "each yard in the tree", wanted or not: for none, for k, and
/// for the two yards that are wanted in version 2.
fn short_drives(version: u8) -> Vec<Case> {
    let [road, _, tree, query] = sound_books(version);
    let case = |(wanted, words)| {
        let books = [&road[..], &tree, &query];
        let mut call = asked_of(Asked::Within(SECONDS), wanted, books);
        if let Call::Search { results, .. } = &mut call {
            *results = words;
        }
        Case::new(12, "result words for some yards only", call)
    };
    let words = [(kinds::ALL, 0), (kinds::ALL, 2 * usize::from(K)), (4, 4)];
    words.map(case).into()
}

/// The four calls with sound books of a version and areas just long enough.
pub fn accepted(version: u8) -> [Call; 4] {
    let [road, yard, tree, query] = sound_books(version);
    let [search, within] = searches_of(&road, &tree, &query);
    [
        check_of(&road, &yard, &tree),
        build_of(&road, &yard),
        search,
        within,
    ]
}
