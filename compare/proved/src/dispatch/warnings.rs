//! Warnings about names that may be misspelt.

use super::junctions::{Junctions, Named};
use super::lines::{bad, shown, BadLine};
use super::names::{near, parts_differ, Near};

/// No more lines than these warn; one more tells how many junctions there are besides.
const MOST_LINES: usize = 20;

/// A warning for each name that may be misspelt, those first that have a name near to them; none where a line
/// declares all names.
pub fn warnings(junctions: &Junctions) -> Vec<BadLine> {
    if junctions.are_declared() {
        return Vec::new();
    }
    let all: Vec<Named> = junctions.named().collect();
    let (mut near, mut alone) = (Vec::new(), Vec::new());
    for name in &all {
        match nearest(name, &all) {
            Some((how, other)) => near.push(bad(name.line, told_beside(name, how, other))),
            None if name.mentions == 1 => alone.push(bad(name.line, told_alone(name))),
            None => (),
        }
    }
    near.append(&mut alone);
    shortened(near)
}

/// The name that a name may be meant to be: a near one that is named more often, or as often and before it. Names that
/// are named more than once, and whose parts begin differently, are meant to be two.
fn nearest<'a>(name: &Named, all: &'a [Named<'a>]) -> Option<(Near, &'a Named<'a>)> {
    let ahead = |other: &&Named| (other.mentions, name.number) > (name.mentions, other.number);
    all.iter().filter(ahead).find_map(|other| {
        let how = near(name.name, other.name)?;
        let two = how == Near::Letters && name.mentions > 1 && parts_differ(name.name, other.name);
        (!two).then_some((how, other))
    })
}

/// A name beside one that it may be meant to be.
fn told_beside(name: &Named, how: Near, other: &Named) -> String {
    let (one, other, line) = (shown(name.name), shown(other.name), other.line);
    let how = how.told();
    match name.mentions {
        1 => format!(
            "junction {one} is named only once, and {how} it from {other} (line {line}); misspelt?"
        ),
        _ => format!("{how} junction {one} from {other} (line {line}); misspelt?"),
    }
}

/// A name that is named once, and nothing near it.
fn told_alone(name: &Named) -> String {
    format!(
        "junction {} is named only once; misspelt?",
        shown(name.name)
    )
}

/// The first warnings, and how many there are besides.
fn shortened(mut warnings: Vec<BadLine>) -> Vec<BadLine> {
    if warnings.len() > MOST_LINES {
        let rest = warnings.split_off(MOST_LINES - 1);
        let more = format!(
            "and {} more junctions, from here on, may be misspelt",
            rest.len()
        );
        let first = rest.iter().map(|warning| warning.line).min();
        warnings.extend(first.map(|line| bad(line, more)));
    }
    warnings
}
