//! Searches followed step by step.

use compare::kinds::ALL;
use compare::search::state::Item::{self, Region, Yard};
use compare::search::state::{step, Held, State};
use compare::search::Search;
use compare::tree::{self, Landmark, Stored, Tree};

type Queue = Vec<(u64, Item)>;

/// A queue from its text: each item is a key and R or Y with a number.
fn queue(text: &str) -> Queue {
    let words: Vec<&str> = text.split_whitespace().filter(|&w| w != "-").collect();
    let item = |words: &[&str]| {
        let (kind, number) = words[1].split_at(1);
        let number: u16 = number.parse().unwrap();
        let item = match kind {
            "R" => Region(usize::from(number)),
            _ => Yard(number),
        };
        (words[0].parse().unwrap(), item)
    };
    words.chunks(2).map(item).collect()
}

/// The queue at first and after each step, one a line; settled after the last and not before. `-` is an
/// empty queue.
pub fn follow(search: &Search, queues: &str) -> State {
    let mut queues = queues.trim().lines();
    let mut state = State::start(search);
    assert_eq!(held_queue(&state), queue(queues.next().unwrap()));
    for text in queues {
        assert!(!state.settled(search));
        state = step(search, state);
        assert_eq!(held_queue(&state), queue(text));
    }
    assert!(state.settled(search));
    state
}

/// The state's queue, in order.
fn held_queue(state: &State) -> Queue {
    state.queue.iter().copied().collect()
}

/// The held yards as (distance, the furthest crew's distance, yard).
pub fn held(state: &State) -> Vec<(u32, u32, u16)> {
    let numbers = |held: &Held| (held.drive.distance, held.drive.furthest, held.yard);
    state.held.iter().map(numbers).collect()
}

/// The first so many lines of a text.
pub fn lines(text: &str, count: usize) -> String {
    let lines: Vec<&str> = text.trim().lines().take(count).collect();
    lines.join("\n")
}

/// The book of a tree that is one leaf with one landmark.
pub fn one_leaf(junctions: u16, junction: u16, list: &[(u32, u16)]) -> Vec<u8> {
    let yards = list.len() as u16;
    let landmark = Landmark {
        junction,
        stored: Stored::list(list),
    };
    let root = tree::Region {
        first: 0,
        after: junctions,
        children: 0,
        yards,
        kinds: ALL,
        landmarks: vec![landmark],
    };
    tree::write(&Tree {
        version: 1,
        junctions,
        yards,
        m: 1,
        regions: vec![root],
    })
}
