//! The plain finder's steps, held against the proved call's answer.

use std::collections::BTreeSet;

use compare::refusal::WORK_WORDS;
use compare::search::state::{true_drive, Held, Item, State};
use compare::search::{found, run_seen, tested, Outcome, Search};
use compare::{brute, road};

use super::answer::Answer;
use super::books::Books;
use super::calls::RESULT_WORDS;
use super::fault::Fault;
use super::refusal::by_rule;

/// One step: what left the queue with which key, what it queued, and for a yard how it was measured.
pub struct Step {
    pub key: u64,
    pub item: Item,
    pub queued: Vec<(u64, Item)>,
    pub measured: Option<Measured>,
}

/// A measured yard's seconds, its place among the held yards, counted from 0, and the yard that it put off them.
pub struct Measured {
    pub seconds: u32,
    pub place: Option<usize>,
    pub put_off: Option<u16>,
}

/// A search with all of its steps.
pub struct Trace {
    pub search: Search,
    pub steps: Vec<Step>,
    pub outcome: Outcome,
}

/// What steps are told by, of one state.
struct Seen {
    queue: BTreeSet<(u64, Item)>,
    held: Vec<Held>,
}

impl Seen {
    /// A copy of a state's queue and held yards.
    fn new(state: &State) -> Self {
        Seen {
            queue: state.queue.clone(),
            held: state.held.clone(),
        }
    }
}

impl Trace {
    /// The plain finder's search of the same books; its answer has to be the proved one, and brute force's.
    pub fn new(answer: &Answer) -> Result<Self, Fault> {
        let (asked, books) = (answer.asked, answer.books.searched());
        let search = tested(asked, answer.wanted, books, WORK_WORDS, RESULT_WORDS)
            .map_err(|number| Fault::failed(by_rule(number, "the plain finder, of sound books")))?;
        let mut seen = Vec::new();
        let outcome = run_seen(&search, |state| seen.push(Seen::new(state)));
        seen.push(Seen::new(&outcome.state));
        let steps = seen
            .windows(2)
            .filter_map(|pair| step(&search, &pair[0], &pair[1]));
        let steps = steps.collect();
        let trace = Trace {
            search,
            steps,
            outcome,
        };
        trace.is_proved(answer)?;
        Ok(trace)
    }

    /// List and counts are those of the proved call; a settled list is brute force's too.
    fn is_proved(&self, answer: &Answer) -> Result<(), Fault> {
        let list = &answer.searched.list;
        let counts = found(&self.outcome) == answer.searched.found;
        let settled = self.outcome.settled;
        let held = self.outcome.state.held.iter();
        let held: Vec<(u16, u32)> = held.map(|held| (held.yard, held.distance())).collect();
        let plain = !settled || held == *list;
        let wide = list.iter().map(|&(yard, d)| (u64::from(d), yard));
        let brute = !settled || wide.eq(self.brute(&answer.books)?);
        match (counts && plain, brute) {
            (true, true) => Ok(()),
            (false, _) => Err(differs("the plain finder's")),
            (true, false) => Err(differs("brute force's")),
        }
    }

    /// Brute force's list.
    fn brute(&self, books: &Books) -> Result<Vec<(u64, u16)>, Fault> {
        let road = road::read(&books.road)
            .map_err(|number| Fault::failed(by_rule(number, "road book")))?;
        let search = &self.search;
        Ok(brute::list(
            search.asked,
            search.wanted,
            &road,
            &search.tree,
            &search.query,
        ))
    }

    /// The step, counted from 1, in which a yard was measured.
    pub fn measured_in(&self, yard: u16) -> Option<usize> {
        let place = self
            .steps
            .iter()
            .position(|step| step.item == Item::Yard(yard));
        place.map(|place| place + 1)
    }

    /// What was left in the queue, with the yards that it stands for and that were never measured.
    pub fn never_measured(&self) -> Vec<(u64, Item, Vec<u16>)> {
        let queue = &self.outcome.state.queue;
        let gone = |yard: &u16| {
            self.measured_in(*yard).is_some()
                || queue.iter().any(|(_, item)| *item == Item::Yard(*yard))
        };
        let left = |&(key, item): &(u64, Item)| match item {
            Item::Yard(yard) => (key, item, vec![yard]),
            Item::Region(number) => {
                let yards = self.search.tree.yards_of(number);
                (
                    key,
                    item,
                    yards.into_iter().filter(|yard| !gone(yard)).collect(),
                )
            }
        };
        queue.iter().map(left).collect()
    }
}

/// Another answer than the proved one.
fn differs(whose: &str) -> Fault {
    Fault::failed(format!("{whose} answer differs from the proved call's"))
}

/// The step between two states: the first of the queue left it.
fn step(search: &Search, before: &Seen, after: &Seen) -> Option<Step> {
    let &(key, item) = before.queue.first()?;
    let mut waiting = before.queue.clone();
    waiting.pop_first();
    let measured = match item {
        Item::Yard(yard) => Some(measured(search, yard, before, after)),
        Item::Region(_) => None,
    };
    Some(Step {
        key,
        item,
        queued: after.queue.difference(&waiting).copied().collect(),
        measured,
    })
}

/// How a yard was measured between two states.
fn measured(search: &Search, yard: u16, before: &Seen, after: &Seen) -> Measured {
    let put_off = before.held.iter().find(|held| !after.held.contains(held));
    Measured {
        seconds: true_drive(search, yard).distance,
        place: after.held.iter().position(|held| held.yard == yard),
        put_off: put_off.map(|held| held.yard),
    }
}
