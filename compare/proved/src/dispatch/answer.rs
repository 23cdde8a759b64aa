//! A district's answer by the proved calls: the list, and every crew's seconds to any yard.

use std::collections::BTreeMap;

use compare::{kinds, query, Asked};

use super::books::Books;
use super::calls::{self, Searched};
use super::district::{District, SETTLING_LIMIT};
use super::fault::Fault;
use super::refusal;

/// The books, what is asked of them, and what the proved search answers.
pub struct Answer {
    pub books: Books,
    pub asked: Asked,
    pub wanted: u8,
    pub searched: Searched,
}

impl Answer {
    /// Builds, checks and searches.
    pub fn new(district: &District) -> Result<Self, Fault> {
        let books = Books::new(district)?;
        let asked = district.settings.wanted.asked();
        let wanted = district.kinds.wanted();
        let searched = calls::search(asked, wanted, books.searched()).map_err(refused)?;
        Ok(Answer {
            books,
            asked,
            wanted,
            searched,
        })
    }

    /// Each crew's seconds to every yard; the aggregate of a listed yard's has to be what the list says.
    pub fn seconds(&self, district: &District) -> Result<Seconds, Fault> {
        let seconds = seconds(district, &self.books)?;
        let differs = |&&(yard, listed): &&(u16, u32)| {
            let crews = seconds.get(&yard);
            crews.is_none_or(|crews| aggregate(district, crews) != u64::from(listed))
        };
        match self.searched.list.iter().find(differs) {
            None => Ok(seconds),
            Some(&(yard, listed)) => Err(Fault::failed(format!(
                "the crews' seconds to yard {} do not make {listed}",
                district.junctions.label(yard)
            ))),
        }
    }
}

/// The seconds of each crew to a yard, by yard.
pub type Seconds = BTreeMap<u16, Vec<u32>>;

/// The aggregate of the crews' seconds.
pub fn aggregate(district: &District, seconds: &[u32]) -> u64 {
    let values = seconds.iter().copied().map(u64::from);
    district.settings.aggregate.over(values)
}

/// The furthest crew's seconds.
pub fn furthest(seconds: &[u32]) -> u32 {
    seconds.iter().copied().max().unwrap_or(0)
}

/// Each crew's seconds to every yard: proved searches for one crew at a time, within any drive, list them all.
fn seconds(district: &District, books: &Books) -> Result<Seconds, Fault> {
    let mut all = Seconds::new();
    for &crew in &district.crews {
        let query = query::write(0, 1, SETTLING_LIMIT, &[crew]);
        let alone = [&books.road[..], &books.tree, &query];
        let searched =
            calls::search(Asked::Within(u32::MAX), kinds::ALL, alone).map_err(refused)?;
        for (yard, seconds) in searched.list {
            all.entry(yard).or_default().push(seconds);
        }
    }
    Ok(all)
}

/// A refusal that sound books never get.
fn refused(number: u32) -> Fault {
    Fault::failed(refusal::by_rule(number, "sound books"))
}
