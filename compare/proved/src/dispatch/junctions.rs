//! The junctions of a file: written as numbers, or as names that are numbered in order of first appearance.

use std::collections::{BTreeMap, BTreeSet, HashMap};

use compare::road::MOST_JUNCTIONS;

use super::lines::{bad, shown, BadLine, Line};
use super::number::{is_number, Kind};

/// The most characters of a name.
const MOST_NAME: usize = 64;

/// A junction written as its number.
const JUNCTION: Kind = Kind {
    name: "a junction",
    range: 0..=MOST_JUNCTIONS as u32 - 1,
};

/// How a file writes its junctions.
#[derive(Clone, Copy, Debug, PartialEq, Eq)]
enum Manner {
    Numbers,
    Names,
}

/// The junctions seen so far: their names, the first line of each and how often it is named, those that roads name, and
/// those that a `junctions` line declares, with the first such line.
#[derive(Clone, Debug, Default)]
pub struct Junctions {
    manner: Option<(Manner, usize)>,
    names: Vec<String>,
    numbers: HashMap<String, u16>,
    lines: BTreeMap<u16, usize>,
    mentions: BTreeMap<u16, usize>,
    on_roads: BTreeSet<u16>,
    declared: BTreeSet<u16>,
    declared_in: Option<usize>,
    least: u16,
}

/// A junction's name, its number, the first line that has it, and how often it is named.
pub struct Named<'a> {
    pub name: &'a str,
    pub number: u16,
    pub line: usize,
    pub mentions: usize,
}

impl Junctions {
    /// The junction that a word writes.
    pub fn read(&mut self, word: &str, line: &Line) -> Result<u16, BadLine> {
        let junction = if is_number(word) {
            self.keep(Manner::Numbers, line)?;
            JUNCTION.read(word, line)? as u16
        } else {
            self.name(word, line)?
        };
        self.lines.entry(junction).or_insert(line.number);
        *self.mentions.entry(junction).or_default() += 1;
        Ok(junction)
    }

    /// A road's end.
    pub fn read_end(&mut self, word: &str, line: &Line) -> Result<u16, BadLine> {
        let junction = self.read(word, line)?;
        self.on_roads.insert(junction);
        Ok(junction)
    }

    /// A line declares a name; then every other name has to be declared too.
    pub fn declare(&mut self, word: &str, line: &Line) -> Result<(), BadLine> {
        let junction = self.name(word, line)?;
        self.lines.entry(junction).or_insert(line.number);
        self.declared.insert(junction);
        self.declared_in.get_or_insert(line.number);
        Ok(())
    }

    /// Whether a line declares the names.
    pub fn are_declared(&self) -> bool {
        self.declared_in.is_some()
    }

    /// Where a line declares names, no other is named.
    pub fn test_declared(&self) -> Result<(), BadLine> {
        let Some(declaring) = self.declared_in else {
            return Ok(());
        };
        let other = self
            .named()
            .find(|name| !self.declared.contains(&name.number));
        other.map_or(Ok(()), |other| {
            let name = shown(other.name);
            let message =
                format!("expected a name that line {declaring} declares, not {name}; misspelt?");
            Err(bad(other.line, message))
        })
    }

    /// The junctions that lines name, in order of first appearance; none in a file of numbers.
    pub fn named(&self) -> impl Iterator<Item = Named<'_>> {
        let named = |(&number, &line): (&u16, &usize)| {
            let name = self.names.get(usize::from(number))?;
            let mentions = self.mentions.get(&number).copied().unwrap_or(0);
            Some(Named {
                name,
                number,
                line,
                mentions,
            })
        };
        self.lines.iter().filter_map(named)
    }

    /// A line says that there are at least so many; only numbered junctions are counted so.
    pub fn at_least(&mut self, count: u16, line: &Line) -> Result<(), BadLine> {
        self.keep(Manner::Numbers, line)?;
        self.least = count;
        Ok(())
    }

    /// A file numbers its junctions or names them, and does not mix the two.
    fn keep(&mut self, manner: Manner, line: &Line) -> Result<(), BadLine> {
        let (first, at) = *self.manner.get_or_insert((manner, line.number));
        let wanted = match first {
            _ if first == manner => return Ok(()),
            Manner::Numbers => "numbers",
            Manner::Names => "names",
        };
        let message = format!("expected junctions as {wanted}, as in line {at}: a file does not mix names and numbers");
        Err(line.bad(message))
    }

    /// The number of a name; a new name gets the next number.
    fn name(&mut self, name: &str, line: &Line) -> Result<u16, BadLine> {
        test_name(&format!("a junction: a number, or {NAME}"), name, line)?;
        self.keep(Manner::Names, line)?;
        if let Some(&junction) = self.numbers.get(name) {
            return Ok(junction);
        }
        let junction = self.names.len() as u16;
        if junction == MOST_JUNCTIONS {
            let name = shown(name);
            return Err(line.bad(format!(
                "expected at most {MOST_JUNCTIONS} junctions: {name} is one more"
            )));
        }
        self.names.push(name.to_string());
        self.numbers.insert(name.to_string(), junction);
        Ok(junction)
    }

    /// How many there are: one more than the greatest number, or what a line says if that is more.
    pub fn count(&self) -> u16 {
        let used = self.lines.last_key_value();
        used.map_or(0, |(&greatest, _)| greatest + 1)
            .max(self.least)
    }

    /// The names by number; none in a file of numbers.
    pub fn names(&self) -> &[String] {
        &self.names
    }

    /// What a junction is called: its name, or its number.
    pub fn label(&self, junction: u16) -> String {
        let name = self.names.get(usize::from(junction));
        name.cloned().unwrap_or_else(|| junction.to_string())
    }

    /// The junction with this label, if the district has it.
    pub fn find(&self, label: &str) -> Option<u16> {
        if !self.names.is_empty() {
            return self.numbers.get(label).copied();
        }
        let number = is_number(label).then(|| label.parse().ok()).flatten();
        number.filter(|&number| number < self.count())
    }

    /// That some junctions can't be reached: one that no road names is told, or else one that a line names, or the first.
    pub fn cut_off(&self, unreached: &[u16]) -> String {
        let (junction, from) = self.apart(unreached);
        let label = |junction| shown(&self.label(junction));
        let place = match self.lines.get(&junction) {
            Some(line) => format!(" (line {line})"),
            None => ", which no line names,".to_string(),
        };
        let hint = match self.on_no_road(junction) {
            true => ": no road names it; misspelt?",
            false => "",
        };
        let (cut_off, from) = (label(junction), label(from));
        format!("junction {cut_off}{place} can't be reached from junction {from}{hint}")
    }

    /// A junction that can't be reached, and the one that it can't be reached from: junction 0, unless no road names it.
    fn apart(&self, unreached: &[u16]) -> (u16, u16) {
        let on_road = unreached
            .iter()
            .find(|junction| self.on_roads.contains(junction));
        if let (true, Some(&other)) = (self.on_no_road(0), on_road) {
            return (0, other);
        }
        let no_road = unreached
            .iter()
            .find(|&&junction| self.on_no_road(junction));
        let named = || {
            unreached
                .iter()
                .find(|junction| self.lines.contains_key(junction))
        };
        (*no_road.or_else(named).unwrap_or(&unreached[0]), 0)
    }

    /// Whether a line names a junction, and no road does.
    fn on_no_road(&self, junction: u16) -> bool {
        self.lines.contains_key(&junction) && !self.on_roads.contains(&junction)
    }
}

/// What a name is written as.
pub const NAME: &str = "a letter and then letters, digits, - _ . ' (at most 64)";

/// A name of a junction or a kind begins with a letter, and has letters, digits and `-`, `_`, `.`, `'`.
pub fn test_name(form: &str, word: &str, line: &Line) -> Result<(), BadLine> {
    let fits = |c: char| c.is_alphanumeric() || "-_.'".contains(c);
    let begins = word.starts_with(char::is_alphabetic);
    if begins && word.chars().all(fits) && word.chars().count() <= MOST_NAME {
        return Ok(());
    }
    Err(line.bad(format!("expected {form}, not {}", shown(word))))
}
