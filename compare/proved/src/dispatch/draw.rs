//! What `dispatch draw` prints: the district for Graphviz.

use std::collections::{BTreeMap, BTreeSet};
use std::fmt::Write;

use compare::road::{self, Road, RoadBook};

use super::answer::{aggregate, Answer, Seconds};
use super::district::{counted, District};
use super::fault::{Fault, SPENT};
use super::list::counts;
use super::marks::{legend, Mark};
use super::output::Output;
use super::refusal::by_rule;
use super::trace::Trace;
use super::ways::way;

/// A colour for each crew.
const COLOURS: [&str; 16] = [
    "#d62728", "#1f77b4", "#9467bd", "#ff7f0e", "#17becf", "#e377c2", "#8c564b", "#bcbd22",
    "#800000", "#000080", "#006400", "#4b0082", "#b8860b", "#c71585", "#2f4f4f", "#ff4500",
];

/// How junctions and roads are drawn that have no mark; every junction has one size, so that roads can be compared.
const UNMARKED: &str =
    "node [shape=ellipse, fixedsize=true, fontname=\"sans-serif\", fontsize=11, color=\"#777777\"";
const ROADS: &str = "edge [fontname=\"sans-serif\", fontsize=10, color=\"#999999\"];";

/// A road's seconds, on white, so that no line runs through them.
const SECONDS: &str = "<<table border=\"0\" cellpadding=\"1\" cellspacing=\"0\" bgcolor=\"white\"><tr><td>SECONDS</td></tr></table>>";

/// A junction's width in inches, and the most characters of a line that stands inside it.
const WIDTH: f64 = 1.3;
const MOST_CHARACTERS: usize = 14;

/// Inches between the junctions of the shortest road at least, and what the longest has more.
const GAP: f64 = 0.4;
const LONGEST: f64 = 2.4;

/// The most roads that are bent around junctions; more would take Graphviz minutes.
const MOST_BENT: usize = 200;

/// What is drawn.
struct Drawing<'a> {
    district: &'a District,
    answer: Answer,
    trace: Trace,
    seconds: Seconds,
    ways: Ways,
}

/// The crews, by place, whose way goes along a road, by the road's ends.
type Ways = BTreeMap<(u16, u16), Vec<usize>>;

/// The district as an undirected graph.
pub fn draw(district: &District) -> Result<Output, Fault> {
    let answer = Answer::new(district)?;
    let seconds = answer.seconds(district)?;
    let trace = Trace::new(&answer)?;
    let ways = ways(district, &answer, &seconds)?;
    let drawing = Drawing {
        district,
        answer,
        trace,
        seconds,
        ways,
    };
    let status = if drawing.trace.outcome.settled {
        0
    } else {
        SPENT
    };
    Ok(Output::text(drawing.graph()).with_status(status))
}

/// Each crew's way to the first yard of the list, as long as the proved call says; none if no yard is listed.
fn ways(district: &District, answer: &Answer, seconds: &Seconds) -> Result<Ways, Fault> {
    let mut ways = Ways::new();
    let Some(&(yard, _)) = answer.searched.list.first() else {
        return Ok(ways);
    };
    let book = road::read(&answer.books.road)
        .map_err(|number| Fault::failed(by_rule(number, "road book")))?;
    for (place, &crew) in district.crews.iter().enumerate() {
        let roads = checked_way(&book, crew, yard, seconds[&yard][place])?;
        for road in roads {
            ways.entry((road.low, road.high)).or_default().push(place);
        }
    }
    Ok(ways)
}

/// A way that takes so many seconds.
fn checked_way(book: &RoadBook, crew: u16, yard: u16, seconds: u32) -> Result<Vec<Road>, Fault> {
    let roads = way(book, crew, yard);
    let total: u32 = roads.iter().map(|road| u32::from(road.seconds)).sum();
    match total == seconds {
        true => Ok(roads),
        false => Err(Fault::failed(
            "a crew's way differs from the proved call's seconds",
        )),
    }
}

impl Drawing<'_> {
    /// The whole text.
    fn graph(&self) -> String {
        let mut text = String::from("graph district {\n");
        let _ = writeln!(text, "  graph [{}];", self.style());
        let junctions = 0..self.district.junctions.count();
        let labels: Vec<Vec<String>> = junctions.clone().map(|j| self.lines(j)).collect();
        let lines = labels.iter().map(Vec::len).max().unwrap_or(1);
        let height = 0.25 + 0.22 * lines as f64;
        let _ = writeln!(
            text,
            "  {UNMARKED}, width={WIDTH}, height={height:.2}];\n  {ROADS}"
        );
        for (junction, lines) in junctions.zip(&labels) {
            let label = quoted(&lines.join("\n"));
            let _ = writeln!(
                text,
                "  j{junction} [label={label}{}];",
                self.marks(junction)
            );
        }
        for road in &self.district.roads {
            let _ = writeln!(
                text,
                "  j{} -- j{} [{}];",
                road.low,
                road.high,
                self.road(road)
            );
        }
        text.push_str("}\n");
        text
    }

    /// The attributes of the whole drawing.
    fn style(&self) -> String {
        let bent = self.district.roads.len() <= MOST_BENT;
        let splines = if bent { "true" } else { "line" };
        let caption = quoted(&self.caption());
        format!("layout=neato, overlap=false, overlap_scaling=0, overlap_shrink=false, splines={splines}, fontname=\"sans-serif\", fontsize=11, label={caption}")
    }

    /// What was asked, the counts, and what the marks mean that are there.
    fn caption(&self) -> String {
        let counts = counts(self.district, &self.answer);
        let spent = if self.trace.outcome.settled {
            ""
        } else {
            "spent: no list, "
        };
        let mut lines = vec![self.district.asked(), format!("{spent}{counts}")];
        lines.extend(legend(&self.marked()));
        lines.join("\n")
    }

    /// Every mark that the drawing has.
    fn marked(&self) -> BTreeSet<Mark> {
        let yards = self.district.yards.iter().map(|&yard| self.mark(yard));
        let way = (!self.ways.is_empty()).then_some(Mark::Way);
        yards.chain([Mark::Crew]).chain(way).collect()
    }

    /// A junction's label: its name, a yard's place and seconds, how many crews there are; no line is too long for it.
    fn lines(&self, junction: u16) -> Vec<String> {
        let mut lines = folded(&self.district.junctions.label(junction));
        if let Some(seconds) = self.seconds.get(&junction) {
            let place = self.answer.searched.place(junction);
            let place = place.map_or(String::new(), |place| format!("{place}. "));
            let total = aggregate(self.district, seconds);
            lines.push(format!("{place}yard: {total} s"));
            if lines[lines.len() - 1].len() > MOST_CHARACTERS {
                lines.pop();
                lines.extend([format!("{place}yard:"), format!("{total} s")]);
            }
        }
        match self.crews(junction).len() {
            0 => (),
            count => lines.push(counted(count, "crew")),
        }
        lines
    }

    /// The crews at a junction, by place.
    fn crews(&self, junction: u16) -> Vec<usize> {
        let crews = self.district.crews.iter().enumerate();
        let here = crews.filter(|(_, &crew)| crew == junction);
        here.map(|(place, _)| place).collect()
    }

    /// The marks of a yard and of crews at a junction.
    fn marks(&self, junction: u16) -> String {
        let mut marks = String::new();
        if self.district.yards.contains(&junction) {
            marks.push_str(self.mark(junction).style());
        }
        if let Some(&first) = self.crews(junction).first() {
            let colour = COLOURS[first % COLOURS.len()];
            let _ = write!(marks, ", peripheries=2, penwidth=2, color=\"{colour}\"");
        }
        marks
    }

    /// How a yard is marked.
    fn mark(&self, yard: u16) -> Mark {
        match self.answer.searched.place(yard) {
            Some(_) => Mark::Listed,
            None if !self.district.is_wanted(yard) => Mark::NotWanted,
            None if self.trace.measured_in(yard).is_some() => Mark::Measured,
            None => Mark::NeverMeasured,
        }
    }

    /// A road's attributes: its seconds, a length that grows with them, and the colours of the crews that drive it.
    fn road(&self, road: &Road) -> String {
        let longest = self
            .district
            .roads
            .iter()
            .map(|road| road.seconds)
            .max()
            .unwrap_or(1);
        let length = WIDTH + GAP + LONGEST * f64::from(road.seconds) / f64::from(longest);
        let label = SECONDS.replace("SECONDS", &road.seconds.to_string());
        let mut text = format!("label={label}, len={length:.2}");
        if let Some(crews) = self.ways.get(&(road.low, road.high)) {
            let colours: Vec<&str> = crews
                .iter()
                .map(|&crew| COLOURS[crew % COLOURS.len()])
                .collect();
            let _ = write!(text, ", penwidth=3, color=\"{}\"", colours.join(":"));
        }
        text
    }
}

/// A name in lines that stand inside a junction, broken after the marks between its parts.
fn folded(name: &str) -> Vec<String> {
    let mut lines = vec![String::new()];
    for part in name.split_inclusive(['-', '_', '.', '\'']) {
        for piece in part.chars().collect::<Vec<char>>().chunks(MOST_CHARACTERS) {
            let last = lines.len() - 1;
            if lines[last].chars().count() + piece.len() > MOST_CHARACTERS {
                lines.push(String::new());
            }
            let last = lines.len() - 1;
            lines[last].extend(piece);
        }
    }
    lines
}

/// A string as Graphviz reads it.
fn quoted(text: &str) -> String {
    let text = text
        .replace('\\', "\\\\")
        .replace('"', "\\\"")
        .replace('\n', "\\n");
    format!("\"{text}\"")
}
