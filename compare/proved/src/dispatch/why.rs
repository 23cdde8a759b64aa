//! What `dispatch why` prints: each step, what was never measured, and why yards were left out.

use compare::search::state::Item;

use super::answer::{aggregate, furthest, Answer, Seconds};
use super::district::{counted, told_seconds, District, Wanted};
use super::fault::{Fault, SPENT};
use super::lines::shown;
use super::list::counts;
use super::output::Output;
use super::table::{table, Side};
use super::trace::{Measured, Step, Trace};

/// The most junctions of a region that are named one by one.
const MOST_NAMED: usize = 4;

/// All that the story is told from.
struct Story<'a> {
    district: &'a District,
    answer: Answer,
    trace: Trace,
    seconds: Seconds,
}

/// Every step, and the story of one yard or of all that were left out.
pub fn why(district: &District, yard: Option<&str>) -> Result<Output, Fault> {
    let asked_of = yard.map(|label| yard_of(district, label)).transpose()?;
    let answer = Answer::new(district)?;
    let story = Story {
        district,
        seconds: answer.seconds(district)?,
        trace: Trace::new(&answer)?,
        answer,
    };
    let parts = [
        district.asked(),
        story.steps(),
        story.end(),
        story.never_measured(),
        story.yards(asked_of),
    ];
    let status = if story.trace.outcome.settled {
        0
    } else {
        SPENT
    };
    Ok(Output::text(parts.join("\n")).with_status(status))
}

/// The yard with this label.
fn yard_of(district: &District, label: &str) -> Result<u16, Fault> {
    let found = district
        .junctions
        .find(label)
        .filter(|junction| district.yards.contains(junction));
    found.ok_or_else(|| {
        Fault::bad_input(format!("expected a yard of the file, not {}", shown(label)))
    })
}

impl Story<'_> {
    /// A row for each step.
    fn steps(&self) -> String {
        let heading = [
            "step",
            "key",
            "what left the queue, what it queued (with its key), and with which key it waits again",
        ];
        let mut rows = vec![heading.map(String::from).to_vec()];
        for (place, step) in self.trace.steps.iter().enumerate() {
            let what = match &step.measured {
                Some(measured) => self.measuring(step.item, measured),
                None => self.opening(step),
            };
            rows.push(vec![(place + 1).to_string(), step.key.to_string(), what]);
        }
        table(&[Side::Right, Side::Right, Side::Left], &rows)
    }

    /// A region that left the queue, and what it queued.
    fn opening(&self, step: &Step) -> String {
        let (itself, others): (Vec<_>, Vec<_>) =
            step.queued.iter().partition(|(_, item)| *item == step.item);
        let told = |(key, item): &(u64, Item)| format!("{} ({key})", self.item(*item));
        let queued: Vec<String> = others.iter().map(told).collect();
        let mut what = Vec::new();
        if !queued.is_empty() {
            what.push(format!("queues {}", queued.join(", ")));
        }
        what.extend(itself.iter().map(|(key, _)| format!("waits with {key}")));
        format!("{}: {}", self.region(step.item), what.join("; "))
    }

    /// A yard that left the queue: its seconds, its place so far, and the yard that it put off the list.
    fn measuring(&self, item: Item, measured: &Measured) -> String {
        let standing = match measured.place {
            Some(place) => format!("place {} so far", place + 1),
            None => format!("not {}", self.district.settings.wanted.told()),
        };
        let off = measured
            .put_off
            .map(|yard| format!(", {} falls off", self.yard(yard)));
        let (seconds, off) = (measured.seconds, off.unwrap_or_default());
        format!(
            "{}: measured, {seconds} seconds, {standing}{off}",
            self.item(item)
        )
    }

    /// Why the search ended.
    fn end(&self) -> String {
        let (settings, outcome) = (&self.district.settings, &self.trace.outcome);
        let limit = counted(settings.limit as usize, "step");
        let left = !outcome.state.queue.is_empty();
        let why = match (settings.wanted, outcome.state.held.last()) {
            _ if !outcome.settled => format!("spent: no list, the limit is {limit}"),
            (Wanted::First(_), Some(last)) if left => {
                let (seconds, yard) = (last.distance(), self.yard(last.yard));
                format!("settled: every key left is above {seconds}, the seconds of {yard}")
            }
            (Wanted::Within(seconds), _) if left => {
                let seconds = told_seconds(seconds);
                format!("settled: every key left is above the {seconds}")
            }
            _ => "settled: the queue is empty".to_string(),
        };
        format!("{why}; {}\n", counts(self.district, &self.answer))
    }

    /// What was left in the queue: the yards, and the least seconds that they can take.
    fn never_measured(&self) -> String {
        let mut text = String::new();
        for (key, item, mut yards) in self.trace.never_measured() {
            yards.retain(|&yard| self.district.is_wanted(yard));
            let by = match item {
                Item::Yard(_) => "its own key".to_string(),
                Item::Region(_) => format!("the key of {}", self.region(item)),
            };
            text.push_str(&format!(
                "  {}: at least {key} seconds, {by}\n",
                self.yards_named(&yards)
            ));
        }
        match text.is_empty() {
            true if self.district.kinds.wanted_names().is_some() => {
                "every yard of a wanted kind was measured\n".to_string()
            }
            true => "every yard was measured\n".to_string(),
            false => format!("never measured:\n{text}"),
        }
    }

    /// The story of one yard, or of all yards that were left out.
    fn yards(&self, asked_of: Option<u16>) -> String {
        if let Some(yard) = asked_of {
            return self.one_yard(yard);
        }
        let listed = |yard: &u16| self.answer.searched.place(*yard).is_some();
        let left_out = self
            .district
            .yards
            .iter()
            .copied()
            .filter(|yard| !listed(yard));
        let lines: String = left_out
            .filter_map(|yard| self.left_out(yard))
            .map(|line| format!("  {line}\n"))
            .collect();
        match lines.is_empty() {
            true if self.trace.outcome.settled => "every yard is on the list\n".to_string(),
            true => "spent: no yard is on a list\n".to_string(),
            false => format!("left out:\n{lines}"),
        }
    }

    /// Where a yard stands on the list or why it was left out, and when it was measured.
    fn one_yard(&self, yard: u16) -> String {
        let standing = match self.answer.searched.place(yard) {
            Some(place) => format!("{}: place {place}", self.drives(yard)),
            None => self
                .left_out(yard)
                .unwrap_or_else(|| format!("{}: no list", self.drives(yard))),
        };
        let measured = match self.trace.measured_in(yard) {
            Some(step) => format!("measured in step {step}"),
            None => "never measured".to_string(),
        };
        format!("{standing}; {measured}\n")
    }

    /// Why a yard was left out: who beat it, or how far it is above the drive's seconds; nothing if there is no list.
    fn left_out(&self, yard: u16) -> Option<String> {
        if !self.trace.outcome.settled {
            return None;
        }
        if let (Some(wanted), false) = (
            self.district.kinds.wanted_names(),
            self.district.is_wanted(yard),
        ) {
            return Some(format!("{}: it has no {wanted}", self.drives(yard)));
        }
        let why = match self.district.settings.wanted {
            Wanted::First(_) => self.beaten(yard, self.answer.searched.list.last()?),
            Wanted::Within(seconds) => {
                let total = aggregate(self.district, &self.seconds[&yard]);
                let above = total - u64::from(seconds);
                format!("{above} above the {}", told_seconds(seconds))
            }
        };
        Some(format!("{}: {why}", self.drives(yard)))
    }

    /// Who beat a yard, and by how much.
    fn beaten(&self, yard: u16, &(by, best): &(u16, u32)) -> String {
        let total = aggregate(self.district, &self.seconds[&yard]);
        let ahead = match total - u64::from(best) {
            0 => format!("the same {best}{}", self.tie_broken(yard, by)),
            behind => format!("{best}, {behind} less"),
        };
        format!("beaten by {} with {ahead}", self.yard(by))
    }

    /// Why a yard is beaten by one with the same seconds: by the furthest crew, or, if that is as far, by its number.
    /// If the furthest crew's seconds are the yard's, they have been told.
    fn tie_broken(&self, yard: u16, by: u16) -> String {
        let [nearer, furthest] = [by, yard].map(|yard| furthest(&self.seconds[&yard]));
        let total = aggregate(self.district, &self.seconds[&yard]);
        match furthest - nearer {
            0 if u64::from(furthest) == total => " and the lower number".to_string(),
            0 => format!(", the furthest crew at the same {nearer}, and the lower number"),
            less => format!(" and the furthest crew at {nearer}, {less} less"),
        }
    }

    /// A yard with its seconds and each crew's.
    fn drives(&self, yard: u16) -> String {
        let seconds = &self.seconds[&yard];
        let crews = self.district.labels(&self.district.crews);
        let each = crews
            .iter()
            .zip(seconds)
            .map(|(crew, seconds)| format!("{seconds} from {crew}"));
        let each: Vec<String> = each.collect();
        let total = aggregate(self.district, seconds);
        format!("{}, {total} seconds ({})", self.yard(yard), each.join(", "))
    }

    /// An item in a few words.
    fn item(&self, item: Item) -> String {
        match item {
            Item::Region(number) => format!("region {number}"),
            Item::Yard(yard) => self.yard(yard),
        }
    }

    /// A region with its junctions and yards.
    fn region(&self, item: Item) -> String {
        let Item::Region(number) = item else {
            return self.item(item);
        };
        let region = &self.trace.search.tree.regions[number];
        format!(
            "region {number} ({}, {})",
            self.range(region.first, region.after),
            counted(usize::from(region.yards), "yard")
        )
    }

    /// A range of junctions: by numbers its ends; by names each of a few, or the ends as the file first names them.
    fn range(&self, first: u16, after: u16) -> String {
        let junctions: Vec<u16> = (first..after).collect();
        let labels = self.district.labels(&junctions);
        let ends = format!("{} to {}", labels[0], labels[labels.len() - 1]);
        match (
            labels.split_last(),
            self.district.junctions.names().is_empty(),
        ) {
            (Some((last, [])), _) => format!("junction {last}"),
            (Some((last, others)), false) if labels.len() <= MOST_NAMED => {
                format!("junctions {} and {last}", others.join(", "))
            }
            (_, true) => format!("junctions {ends}"),
            (_, false) => format!("junctions {ends} as first named"),
        }
    }

    /// A yard by its label.
    fn yard(&self, yard: u16) -> String {
        format!("yard {}", self.district.junctions.label(yard))
    }

    /// Some yards by their labels.
    fn yards_named(&self, yards: &[u16]) -> String {
        let noun = if yards.len() == 1 { "yard" } else { "yards" };
        format!("{noun} {}", self.district.labels(yards).join(", "))
    }
}
