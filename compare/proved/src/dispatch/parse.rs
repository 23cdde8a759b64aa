//! Reads the text form of a district.

use std::collections::BTreeMap;

use compare::query::Aggregate;
use compare::road::{Road, MOST_ROADS};
use compare::yard::MOST_YARDS;

use super::district::{counted, District, Settings, Wanted};
use super::junctions::Junctions;
use super::kinds::KindLines;
use super::lines::{bad, lines, shown, some, BadLine, Line};
use super::number::{is_number, Kind};
use super::warnings::warnings;

/// The most crews of a query.
const MOST_CREWS: usize = 16;

const SECONDS: Kind = Kind {
    name: "seconds",
    range: 1..=65_535,
};
const JUNCTIONS: Kind = Kind {
    name: "a number of junctions",
    range: 1..=1_024,
};
const FIRST: Kind = Kind {
    name: "a number of yards",
    range: 1..=64,
};
const DRIVE: Kind = Kind {
    name: "seconds",
    range: 0..=u32::MAX,
};
const LIMIT: Kind = Kind {
    name: "a number of steps",
    range: 0..=u32::MAX,
};
const LANDMARKS: Kind = Kind {
    name: "landmarks",
    range: 1..=4,
};
const LEAF: Kind = Kind {
    name: "a leaf limit",
    range: 1..=256,
};

/// The district that a file's bytes give.
pub fn parse(bytes: &[u8]) -> Result<District, BadLine> {
    let mut reading = Reading::default();
    for line in lines(bytes)? {
        reading.line(&line)?;
    }
    if reading.junctions.count() == 0 {
        let last = bytes.iter().filter(|&&byte| byte == b'\n').count() + 1;
        return Err(bad(
            last,
            "expected a road, a yard or a crew: the file ends without any",
        ));
    }
    reading.done()
}

/// What was read so far; roads by their ends and yards with their lines, what may be said once with its line.
#[derive(Default)]
struct Reading {
    junctions: Junctions,
    roads: BTreeMap<(u16, u16), (u16, usize)>,
    yards: BTreeMap<u16, usize>,
    crews: Vec<u16>,
    kinds: KindLines,
    settings: Settings,
    said: BTreeMap<String, usize>,
}

impl Reading {
    /// Reads one line by its first word.
    fn line(&mut self, line: &Line) -> Result<(), BadLine> {
        let word = line.words[0];
        match word {
            "road" => self.road(line),
            "yard" => self.yards(line),
            "crew" => self.crews(line),
            "kind" => self.kinds.declare(line),
            "want" => self.want(line),
            "sum" => self.aggregate(line, Aggregate::Sum),
            "maximum" => self.aggregate(line, Aggregate::Maximum),
            "junctions" => self.all_junctions(line),
            "first" | "within" => self.wanted(line),
            "limit" | "landmarks" | "leaf" => self.setting(line),
            _ => Err(line.bad(format!(
                "expected road, yard, crew, junctions, kind, want, sum, maximum, first, within, limit, landmarks or \
                 leaf, not {}",
                shown(word)
            ))),
        }
    }

    /// `road END END SECONDS`.
    fn road(&mut self, line: &Line) -> Result<(), BadLine> {
        let [one, other, seconds] = after(line, "road END END SECONDS")?;
        let ends = [
            self.junctions.read_end(one, line)?,
            self.junctions.read_end(other, line)?,
        ];
        let seconds = SECONDS.read(seconds, line)? as u16;
        if ends[0] == ends[1] {
            return Err(line.bad(format!(
                "expected two different ends, not {} twice",
                shown(one)
            )));
        }
        let pair = (ends[0].min(ends[1]), ends[0].max(ends[1]));
        if let Some((_, before)) = self.roads.insert(pair, (seconds, line.number)) {
            let (one, other) = (shown(one), shown(other));
            return Err(line.bad(format!(
                "expected each road once: line {before} has {one} and {other} too"
            )));
        }
        at_most(self.roads.len(), usize::from(MOST_ROADS), "roads", line)
    }

    /// `yard JUNCTION ...`, or `yard JUNCTION ... kinds KIND ...`.
    fn yards(&mut self, line: &Line) -> Result<(), BadLine> {
        let words = &line.words[1..];
        let kinds = words.iter().position(|&word| word == "kinds");
        let junctions = &words[..kinds.unwrap_or(words.len())];
        let mut yards = Vec::new();
        for word in some(junctions, line, "yard JUNCTION ...")? {
            let junction = self.junctions.read(word, line)?;
            self.yard(junction, line)?;
            yards.push(junction);
        }
        match kinds {
            Some(place) => self.kinds.of_yards(&yards, &words[place + 1..], line),
            None => Ok(()),
        }
    }

    /// `crew JUNCTION ...`; crews may stand at one junction.
    fn crews(&mut self, line: &Line) -> Result<(), BadLine> {
        for word in some(&line.words[1..], line, "crew JUNCTION ...")? {
            let junction = self.junctions.read(word, line)?;
            self.crews.push(junction);
            at_most(self.crews.len(), MOST_CREWS, "crews", line)?;
        }
        Ok(())
    }

    /// `want KIND ...`.
    fn want(&mut self, line: &Line) -> Result<(), BadLine> {
        self.once("want", line)?;
        self.kinds.want(line)
    }

    /// A junction has at most one yard.
    fn yard(&mut self, junction: u16, line: &Line) -> Result<(), BadLine> {
        if let Some(before) = self.yards.insert(junction, line.number) {
            let label = shown(&self.junctions.label(junction));
            return Err(line.bad(format!(
                "expected each yard once: line {before} has {label} too"
            )));
        }
        at_most(self.yards.len(), usize::from(MOST_YARDS), "yards", line)
    }

    /// `sum` or `maximum`.
    fn aggregate(&mut self, line: &Line, aggregate: Aggregate) -> Result<(), BadLine> {
        let [] = after(line, line.words[0])?;
        self.once("sum or maximum", line)?;
        self.settings.aggregate = aggregate;
        Ok(())
    }

    /// `first NUMBER` or `within SECONDS`.
    fn wanted(&mut self, line: &Line) -> Result<(), BadLine> {
        self.settings.wanted = if line.words[0] == "first" {
            let [word] = after(line, "first NUMBER")?;
            Wanted::First(FIRST.read(word, line)? as u8)
        } else {
            let [word] = after(line, "within SECONDS")?;
            Wanted::Within(DRIVE.read(word, line)?)
        };
        self.once("first or within", line)
    }

    /// `junctions NUMBER`, or `junctions NAME ...` as often as is wanted.
    fn all_junctions(&mut self, line: &Line) -> Result<(), BadLine> {
        let names = &line.words[1..];
        if names.first().is_some_and(|word| !is_number(word)) {
            return names
                .iter()
                .try_for_each(|name| self.junctions.declare(name, line));
        }
        let [word] = after(line, "junctions NUMBER")?;
        self.once("junctions", line)?;
        let count = JUNCTIONS.read(word, line)?;
        self.junctions.at_least(count as u16, line)
    }

    /// `limit N`, `landmarks N` or `leaf N`.
    fn setting(&mut self, line: &Line) -> Result<(), BadLine> {
        let name = line.words[0];
        let [word] = after(line, &format!("{name} NUMBER"))?;
        let settings = &mut self.settings;
        match name {
            "limit" => settings.limit = LIMIT.read(word, line)?,
            "landmarks" => settings.landmarks = LANDMARKS.read(word, line)?,
            _ => settings.leaf = LEAF.read(word, line)?,
        }
        self.once(name, line)
    }

    /// What may be said once is said here.
    fn once(&mut self, what: &str, line: &Line) -> Result<(), BadLine> {
        match self.said.insert(what.to_string(), line.number) {
            None => Ok(()),
            Some(before) => {
                Err(line.bad(format!("expected {what} once: line {before} says it too")))
            }
        }
    }

    /// The district, its roads and yards in order, with the warnings about its names.
    fn done(self) -> Result<District, BadLine> {
        self.junctions.test_declared()?;
        let road = |(&(low, high), &(seconds, _)): (&(u16, u16), &(u16, usize))| Road {
            low,
            high,
            seconds,
        };
        Ok(District {
            roads: self.roads.iter().map(road).collect(),
            yards: self.yards.into_keys().collect(),
            warnings: warnings(&self.junctions),
            junctions: self.junctions,
            crews: self.crews,
            kinds: self.kinds.done()?,
            settings: self.settings,
        })
    }
}

/// The words after the first, as many as the form has.
fn after<'a, const N: usize>(line: &Line<'a>, form: &str) -> Result<[&'a str; N], BadLine> {
    let words = &line.words[1..];
    let found = counted(words.len(), "word");
    let wrong = |_| {
        line.bad(format!(
            "expected `{form}`, not {found} after `{}`",
            line.words[0]
        ))
    };
    words.try_into().map_err(wrong)
}

/// A count that a book can hold.
fn at_most(count: usize, most: usize, what: &str, line: &Line) -> Result<(), BadLine> {
    match count <= most {
        true => Ok(()),
        false => Err(line.bad(format!("expected at most {most} {what}: this is one more"))),
    }
}
