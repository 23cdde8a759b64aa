//! Kinds of yard by name, as lines give them: a bit for each kind, in the order in which `kind` lines name them.

use std::collections::BTreeMap;

use compare::kinds::ALL;

use super::junctions::{test_name, NAME};
use super::lines::{bad, shown, some, BadLine, Line};

/// The most kinds: a byte has so many bits.
const MOST_KINDS: usize = 8;

/// A kind's name, and the line that it stands in.
type Said = (String, usize);

/// What lines say of kinds; they may come in any order, so names are looked up at the end.
#[derive(Default)]
pub struct KindLines {
    names: Vec<String>,
    yards: Vec<(u16, Said)>,
    wanted: Vec<Said>,
}

/// The kinds' names, the kinds of each yard that has not all of them, and those that are wanted.
#[derive(Clone, Debug, Default, PartialEq, Eq)]
pub struct Kinds {
    names: Vec<String>,
    yards: BTreeMap<u16, u8>,
    wanted: Option<u8>,
}

impl KindLines {
    /// `kind NAME ...`.
    pub fn declare(&mut self, line: &Line) -> Result<(), BadLine> {
        for name in some(&line.words[1..], line, "kind NAME ...")? {
            test_name(&format!("a kind: {NAME}"), name, line)?;
            if self.names.iter().any(|before| before == name) {
                return Err(line.bad(format!(
                    "expected each kind once: {} was named",
                    shown(name)
                )));
            }
            self.names.push(name.to_string());
        }
        match self.names.len() <= MOST_KINDS {
            true => Ok(()),
            false => Err(line.bad(format!("expected at most {MOST_KINDS} kinds"))),
        }
    }

    /// `want NAME ...`.
    pub fn want(&mut self, line: &Line) -> Result<(), BadLine> {
        let names = some(&line.words[1..], line, "want KIND ...")?;
        self.wanted.extend(said(names, line));
        Ok(())
    }

    /// The kinds of some yards, as the words after `kinds` name them.
    pub fn of_yards(&mut self, yards: &[u16], names: &[&str], line: &Line) -> Result<(), BadLine> {
        let names = some(names, line, "yard JUNCTION ... kinds KIND ...")?;
        for &yard in yards {
            self.yards
                .extend(said(names, line).map(|said| (yard, said)));
        }
        Ok(())
    }

    /// The kinds, each by its bit.
    pub fn done(self) -> Result<Kinds, BadLine> {
        let bit = |(name, line): &Said| {
            let place = self.names.iter().position(|known| known == name);
            let unknown = || {
                bad(
                    *line,
                    format!(
                        "expected a kind that a `kind` line names, not {}",
                        shown(name)
                    ),
                )
            };
            place.map(|place| 1 << place).ok_or_else(unknown)
        };
        let mut yards = BTreeMap::new();
        for (yard, said) in &self.yards {
            *yards.entry(*yard).or_insert(0) |= bit(said)?;
        }
        let mut wanted = None;
        for said in &self.wanted {
            wanted = Some(wanted.unwrap_or(0) | bit(said)?);
        }
        Ok(Kinds {
            names: self.names,
            yards,
            wanted,
        })
    }
}

impl Kinds {
    /// Whether a file names any.
    pub fn are_told(&self) -> bool {
        !self.names.is_empty()
    }

    /// A yard's byte of kinds: all of them where no line says which.
    pub fn of(&self, yard: u16) -> u8 {
        self.yards.get(&yard).copied().unwrap_or(ALL)
    }

    /// The byte of wanted kinds: all of them where no line says which.
    pub fn wanted(&self) -> u8 {
        self.wanted.unwrap_or(ALL)
    }

    /// The wanted kinds by name, if a line says which.
    pub fn wanted_names(&self) -> Option<String> {
        self.wanted.map(|wanted| self.named(wanted, " or "))
    }

    /// Every kind with its bit.
    pub fn numbered(&self) -> String {
        let bit = |(place, name): (usize, &String)| format!("{name} {}", 1 << place);
        let each: Vec<String> = self.names.iter().enumerate().map(bit).collect();
        each.join(", ")
    }

    /// The names of a byte's kinds.
    pub fn named(&self, kinds: u8, between: &str) -> String {
        let has = |(place, _): &(usize, &String)| kinds >> place & 1 == 1;
        let names = self.names.iter().enumerate().filter(has);
        let names: Vec<&str> = names.map(|(_, name)| name.as_str()).collect();
        names.join(between)
    }
}

/// Words with their line.
fn said<'a>(words: &'a [&str], line: &'a Line) -> impl Iterator<Item = Said> + 'a {
    words.iter().map(|word| (word.to_string(), line.number))
}
