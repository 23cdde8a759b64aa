//! How a drawing marks yards, crews and ways, and what its legend says of those that it has.

use std::collections::BTreeSet;

/// What may be marked, in the legend's order.
#[derive(Clone, Copy, Debug, PartialEq, Eq, PartialOrd, Ord)]
pub enum Mark {
    Listed,
    Measured,
    NeverMeasured,
    NotWanted,
    Crew,
    Way,
}

impl Mark {
    /// A yard's attributes.
    pub fn style(self) -> &'static str {
        match self {
            Mark::Listed => ", shape=box, style=filled, fillcolor=\"#9bdc9b\"",
            Mark::Measured => ", shape=box, style=filled, fillcolor=\"#ffe79a\"",
            Mark::NeverMeasured => ", shape=box, style=dashed",
            Mark::NotWanted => ", shape=box, style=dotted",
            Mark::Crew | Mark::Way => "",
        }
    }

    /// What the legend says of it.
    fn told(self) -> &'static str {
        match self {
            Mark::Listed => "green: listed, with its place",
            Mark::Measured => "yellow: measured, not listed",
            Mark::NeverMeasured => "dashed: never measured",
            Mark::NotWanted => "dotted: not of a wanted kind",
            Mark::Crew => "double line: crews",
            Mark::Way => "coloured roads: each crew's way to the first yard",
        }
    }
}

/// A line for yards and one for crews and ways, of the marks that are there.
pub fn legend(marks: &BTreeSet<Mark>) -> Vec<String> {
    let line = |of_yards: bool| {
        let marks = marks
            .iter()
            .filter(|mark| mark.style().is_empty() != of_yards);
        let told: Vec<&str> = marks.map(|mark| mark.told()).collect();
        told.join("; ")
    };
    let lines = [line(true), line(false)];
    lines.into_iter().filter(|line| !line.is_empty()).collect()
}
