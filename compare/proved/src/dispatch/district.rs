//! A district and a query, as a file gives them.

use compare::query::Aggregate;
use compare::road::Road;
use compare::{kinds, Asked};

use super::junctions::Junctions;
use super::kinds::Kinds;
use super::lines::BadLine;

/// The settling limit, `FINDER_SETTLING_LIMIT` of the header: no tree needs more steps.
pub const SETTLING_LIMIT: u32 = 767;

/// Roads by their ends and yards rise strictly, as in their books; crews are as they were written. Warnings are about
/// names that may be misspelt.
#[derive(Clone, Debug)]
pub struct District {
    pub junctions: Junctions,
    pub roads: Vec<Road>,
    pub yards: Vec<u16>,
    pub crews: Vec<u16>,
    pub kinds: Kinds,
    pub settings: Settings,
    pub warnings: Vec<BadLine>,
}

/// What a file may say once.
#[derive(Clone, Copy, Debug, PartialEq, Eq)]
pub struct Settings {
    pub aggregate: Aggregate,
    pub wanted: Wanted,
    pub limit: u32,
    pub landmarks: u32,
    pub leaf: u32,
}

impl Default for Settings {
    /// What holds where a file says nothing.
    fn default() -> Self {
        Settings {
            aggregate: Aggregate::Sum,
            wanted: Wanted::First(1),
            limit: SETTLING_LIMIT,
            landmarks: 4,
            leaf: 16,
        }
    }
}

/// Which yards are wanted.
#[derive(Clone, Copy, Debug, PartialEq, Eq)]
pub enum Wanted {
    /// The first so many.
    First(u8),
    /// All within so many seconds.
    Within(u32),
}

impl Wanted {
    /// The search that lists them.
    pub fn asked(self) -> Asked {
        match self {
            Wanted::First(_) => Asked::FirstK,
            Wanted::Within(seconds) => Asked::Within(seconds),
        }
    }

    /// The query book's k, which a drive search does not use.
    pub fn k(self) -> u8 {
        match self {
            Wanted::First(k) => k,
            Wanted::Within(_) => 1,
        }
    }

    /// What holds of a wanted yard, in words.
    pub fn told(self) -> String {
        match self {
            Wanted::First(count) => format!("among the first {count}"),
            Wanted::Within(seconds) => format!("within {}", told_seconds(seconds)),
        }
    }
}

impl District {
    /// The labels of some junctions.
    pub fn labels(&self, junctions: &[u16]) -> Vec<String> {
        let label = |&junction: &u16| self.junctions.label(junction);
        junctions.iter().map(label).collect()
    }

    /// The aggregate and the crews in words.
    pub fn over(&self) -> String {
        let aggregate = match self.settings.aggregate {
            Aggregate::Sum => "sum",
            Aggregate::Maximum => "maximum",
        };
        format!("{aggregate} over {}", counted(self.crews.len(), "crew"))
    }

    /// Whether a yard is of a wanted kind.
    pub fn is_wanted(&self, yard: u16) -> bool {
        kinds::share(self.kinds.of(yard), self.kinds.wanted())
    }

    /// The yards of a wanted kind, counted.
    pub fn wanted_yards(&self) -> String {
        let wanted = self.yards.iter().filter(|&&yard| self.is_wanted(yard));
        counted(wanted.count(), "yard")
    }

    /// All that is asked in words.
    pub fn asked(&self) -> String {
        let with = self.kinds.wanted_names();
        let with = with.map_or(String::new(), |names| format!(" with {names}"));
        let (over, yards) = (self.over(), self.wanted_yards() + &with);
        match self.settings.wanted {
            Wanted::First(count) => format!("{over}, first {count} of {yards}"),
            within => format!("{over}, {}, of {yards}", within.told()),
        }
    }
}

/// A drive's seconds with their noun.
pub fn told_seconds(seconds: u32) -> String {
    counted(seconds as usize, "second")
}

/// A count with its noun: `1 yard`, `2 yards`.
pub fn counted(count: usize, noun: &str) -> String {
    match count {
        1 => format!("1 {noun}"),
        _ => format!("{count} {noun}s"),
    }
}
