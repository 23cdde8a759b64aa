//! Search: the k yards of least aggregate, or all yards within a drive, by the tree's bounds.

pub mod bound;
pub mod keys;
pub mod measure;
pub mod state;

use crate::kinds;
use crate::query::Query;
use crate::refusal::{refuse_unless, zero_work, AREA, WANTED, WORK_WORDS};
use crate::road::RoadBook;
use crate::tree::Tree;
use crate::{query, road, tree};
use bound::Sheet;
use state::State;

/// "Both return taken and measured, and settled also the number of yards listed."
#[derive(Clone, Copy, Debug, Default, PartialEq, Eq)]
pub struct Found {
    pub refusal: u32,
    pub settled: u32,
    pub listed: u32,
    pub taken: u32,
    pub measured: u32,
}

/// What a search is asked for, which decides what it keeps and when it stops; its steps are the same.
#[derive(Clone, Copy, Debug, PartialEq, Eq)]
pub enum Asked {
    /// The first k yards, by the query's k.
    FirstK,
    /// "each yard whose aggregate is at most a given number of seconds, not a fixed k". "The query's k is tested
    /// but otherwise unused."
    Within(u32),
}

/// How a search measures yards; lists and counts are the same.
#[derive(Clone, Copy, Debug, PartialEq, Eq)]
pub enum Measuring {
    /// By a least way to each crew under the search's ceiling.
    Ways,
    /// By a least way to each crew, to its end.
    WaysWithoutCeiling,
    /// By a whole walk from the yard.
    WholeWalks,
    /// By the crews' rows alone.
    Rows,
}

/// All that a search asks of its books, with the crews' true distances, which f needs, and the sheet.
pub struct Search {
    pub road: RoadBook,
    pub tree: Tree,
    pub query: Query,
    pub asked: Asked,
    pub wanted: u8,
    pub measuring: Measuring,
    pub sheet: Sheet,
    pub crew_distances: Vec<Vec<u32>>,
}

impl Search {
    /// The same search, with yards measured in this way.
    pub fn by(self, measuring: Measuring) -> Self {
        Search { measuring, ..self }
    }

    /// "Regions [...] without a wanted bit never enter the queue": whether a region may.
    pub fn admits(&self, number: usize) -> bool {
        kinds::share(self.tree.regions[number].kinds, self.wanted)
    }
}

/// A search's end: settled or spent, the steps taken and the last state.
pub struct Outcome {
    pub settled: bool,
    pub taken: u32,
    pub state: State,
}

/// "The planner, in C, calls search": for the first k yards. "Searches take a byte of wanted kinds".
pub fn search(
    road: &[u8],
    tree: &[u8],
    query: &[u8],
    wanted: u8,
    work: &mut [u32],
    results: &mut [u32],
) -> Found {
    let books = [road, tree, query];
    ask(Asked::FirstK, wanted, books, work, results)
}

/// "a search that lists all of them, each once, in yard order, by the same steps, limit and "spent"": all yards
/// within so many seconds.
pub fn within(
    road: &[u8],
    tree: &[u8],
    query: &[u8],
    wanted: u8,
    seconds: u32,
    work: &mut [u32],
    results: &mut [u32],
) -> Found {
    let books = [road, tree, query];
    ask(Asked::Within(seconds), wanted, books, work, results)
}

/// A search of road, tree and query books for yards of the wanted kinds: refused, settled or spent.
pub fn ask(
    asked: Asked,
    wanted: u8,
    books: [&[u8]; 3],
    work: &mut [u32],
    results: &mut [u32],
) -> Found {
    ask_by(Measuring::Ways, asked, wanted, books, work, results)
}

/// The same, with yards measured in this way.
pub fn ask_by(
    measuring: Measuring,
    asked: Asked,
    wanted: u8,
    books: [&[u8]; 3],
    work: &mut [u32],
    results: &mut [u32],
) -> Found {
    let search = match tested(asked, wanted, books, work.len(), results.len()) {
        Ok(search) => search.by(measuring),
        Err(refusal) => return refused(refusal),
    };
    let outcome = run(&search);
    zero_work(work);
    if outcome.settled {
        write_list(&outcome.state, results);
    }
    found(&outcome)
}

/// "Books are tested in the order road, yard, tree, query, each through its own tests, a test between books
/// going with the later one; then the call's m, leaf limit and areas."
pub fn tested(
    asked: Asked,
    wanted: u8,
    books: [&[u8]; 3],
    work: usize,
    results: usize,
) -> Result<Search, u32> {
    let search = tested_books(asked, wanted, books)?;
    let needed = result_words(asked, &search.tree, &search.query);
    refuse_unless(work >= WORK_WORDS && results >= needed, AREA)?;
    Ok(search)
}

/// The tests before the areas': the books', then "13, the wanted byte is 0, tested directly after 11."
pub fn tested_books(
    asked: Asked,
    wanted: u8,
    [road, tree, query]: [&[u8]; 3],
) -> Result<Search, u32> {
    let road = road::read(road)?;
    let tree = tree::read(tree, road.junctions)?;
    let query = query::read(query, road.junctions)?;
    refuse_unless(wanted != 0, WANTED)?;
    let sheet = Sheet::new(&road, &tree);
    let distances = |&crew: &u16| road.least_distances(crew);
    let crew_distances = query.crews.iter().map(distances).collect();
    Ok(Search {
        road,
        tree,
        query,
        asked,
        wanted,
        measuring: Measuring::Ways,
        sheet,
        crew_distances,
    })
}

/// "results below 2 × k words"; of a drive search, "The result area holds two words for each yard in the tree,
/// or refusal 12."
fn result_words(asked: Asked, tree: &Tree, query: &Query) -> usize {
    match asked {
        Asked::FirstK => 2 * query.k,
        Asked::Within(_) => 2 * usize::from(tree.yards),
    }
}

/// "It is spent exactly if the limit's number of steps was taken and it isn't settled."
pub fn run(search: &Search) -> Outcome {
    run_seen(search, |_| ())
}

/// The same run, with each state shown before its step is taken.
pub fn run_seen(search: &Search, mut see: impl FnMut(&State)) -> Outcome {
    let mut state = State::start(search);
    let mut taken = 0;
    while !state.settled(search) && taken < search.query.limit {
        see(&state);
        state = state::step(search, state);
        taken += 1;
    }
    let settled = state.settled(search);
    Outcome {
        settled,
        taken,
        state,
    }
}

/// "A refusal returns its number, with every other returned field 0".
fn refused(refusal: u32) -> Found {
    Found {
        refusal,
        ..Found::default()
    }
}

/// "Both return taken and measured, and settled also the number of yards listed."
pub fn found(outcome: &Outcome) -> Found {
    let listed = match outcome.settled {
        true => outcome.state.held.len() as u32,
        false => 0,
    };
    Found {
        refusal: 0,
        settled: u32::from(outcome.settled),
        listed,
        taken: outcome.taken,
        measured: outcome.state.measured.len() as u32,
    }
}

/// "Settled writes (yard, distance) words into the result area and nothing after them".
fn write_list(state: &State, results: &mut [u32]) {
    for (words, held) in results.chunks_mut(2).zip(&state.held) {
        words[0] = u32::from(held.yard);
        words[1] = held.distance();
    }
}
