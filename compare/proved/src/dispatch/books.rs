//! The books of a district, by the proved build and check.

use compare::kinds::VERSION;
use compare::query::{self, Aggregate};
use compare::road;
use compare::yard::{self, Yard};

use super::calls;
use super::district::District;
use super::fault::Fault;
use super::refusal;

/// All four books.
#[derive(Clone, Debug, PartialEq, Eq)]
pub struct Books {
    pub road: Vec<u8>,
    pub yard: Vec<u8>,
    pub tree: Vec<u8>,
    pub query: Vec<u8>,
}

impl Books {
    /// The books of a district that has a yard and a crew.
    pub fn new(district: &District) -> Result<Self, Fault> {
        let road = road_book(district)?;
        let (yard, tree) = yard_and_tree(district, &road)?.ok_or_else(|| missing("yard"))?;
        let query = query_book(district).ok_or_else(|| missing("crew"))?;
        Ok(Books {
            road,
            yard,
            tree,
            query,
        })
    }

    /// The books that a search reads.
    pub fn searched(&self) -> [&[u8]; 3] {
        [&self.road, &self.tree, &self.query]
    }
}

/// A file that has not what a search needs.
fn missing(what: &str) -> Fault {
    Fault::bad_input(format!("expected a `{what}` line: the file has none"))
}

/// The road book, which the proved call passes.
pub fn road_book(district: &District) -> Result<Vec<u8>, Fault> {
    let road = road::write(district.junctions.count(), &district.roads);
    let cut_off = |unreached: &[u16]| district.junctions.cut_off(unreached);
    match calls::road_passes(&road) {
        Ok(()) => Ok(road),
        Err(number) => Err(Fault::bad_input(refusal::of_road(number, &road, &cut_off))),
    }
}

/// A yard book and its tree book.
pub type YardAndTree = (Vec<u8>, Vec<u8>);

/// The yard book and the tree book, if the district has a yard.
pub fn yard_and_tree(district: &District, road: &[u8]) -> Result<Option<YardAndTree>, Fault> {
    if district.yards.is_empty() {
        return Ok(None);
    }
    let yard = yard_book(district);
    let settings = &district.settings;
    match calls::build(road, &yard, settings.landmarks, settings.leaf) {
        Ok(tree) => Ok(Some((yard, tree))),
        Err(number) => Err(Fault::bad_input(refusal::by_rule(
            number,
            "yard or tree book",
        ))),
    }
}

/// The yard book: of version 2 where lines name kinds.
fn yard_book(district: &District) -> Vec<u8> {
    let kinds = &district.kinds;
    let yard = |&junction: &u16| Yard {
        junction,
        kinds: kinds.of(junction),
    };
    let yards: Vec<Yard> = district.yards.iter().map(yard).collect();
    let version = if kinds.are_told() { VERSION } else { 1 };
    yard::write_version(version, &yards)
}

/// The query book, if the district has a crew.
pub fn query_book(district: &District) -> Option<Vec<u8>> {
    let settings = &district.settings;
    let code = match settings.aggregate {
        Aggregate::Sum => 0,
        Aggregate::Maximum => 1,
    };
    let k = settings.wanted.k();
    let book = || query::write(code, k, settings.limit, &district.crews);
    (!district.crews.is_empty()).then(book)
}
