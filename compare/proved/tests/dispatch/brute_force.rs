//! Random districts: the lists are brute force's.

use std::fs;
use std::path::Path;

use compare::generate::call::seconds;
use compare::generate::district::{district, District};
use compare::generate::{standard, Numbers};
use compare::query::{self, Aggregate, Query};
use compare::road::{self, RoadBook};
use compare::{brute, yard, Asked};

use crate::command::{folder, grid, printed, told};

/// What is asked of a district's roads and yards.
struct Asking {
    road: RoadBook,
    yards: Vec<u16>,
    query: Query,
    asked: Asked,
}

impl Asking {
    /// A query and what is asked for, the first k yards or those within a drive.
    fn random(numbers: &mut Numbers, made: &District) -> Self {
        let crews = numbers.between(1, 5);
        let crews: Vec<u16> = (0..crews)
            .map(|_| numbers.between16(0, made.junctions - 1))
            .collect();
        let (aggregate, k) = (numbers.between(0, 1) as u8, numbers.between(1, 6) as u8);
        let book = query::write(aggregate, k, u32::MAX, &crews);
        let road = road::read(&made.road).unwrap();
        let asked = match numbers.once_in(2) {
            true => Asked::FirstK,
            false => Asked::Within(seconds(numbers, &road, &made.yards, &book)),
        };
        Asking {
            query: query::read(&book, road.junctions).unwrap(),
            yards: made.yards.clone(),
            road,
            asked,
        }
    }

    /// It as lines of a file, with some tree.
    fn text(&self) -> String {
        let aggregate = match self.query.aggregate {
            Aggregate::Sum => "sum",
            Aggregate::Maximum => "maximum",
        };
        let wanted = match self.asked {
            Asked::FirstK => format!("first {}", self.query.k),
            Asked::Within(seconds) => format!("within {seconds}"),
        };
        let crews = self.query.crews.iter().map(|crew| format!("crew {crew}\n"));
        let crews: String = crews.collect();
        format!("{aggregate}\n{wanted}\nlandmarks 2\nleaf 2\n{crews}")
    }

    /// The rows of its list by brute force.
    fn rows(&self) -> Vec<Vec<u64>> {
        let all = brute::crew_distances(&self.road, &self.query);
        let listed = brute::listed(self.asked, &all, &self.yards, &self.query);
        let row = |(place, (seconds, yard)): (usize, (u64, u16))| {
            let crews = self.query.crews.iter();
            let each = crews.map(|&crew| all[usize::from(crew)][usize::from(yard)]);
            let start = [place as u64 + 1, u64::from(yard), seconds];
            start.into_iter().chain(each).collect()
        };
        listed.into_iter().enumerate().map(row).collect()
    }

    /// The list of a file that asks so is brute force's; the other commands go by it.
    fn assert_listed(&self, file: &Path) {
        let list = printed(&["list", told(file)], 0);
        assert_eq!(rows(&list), self.rows(), "{file:?}");
        printed(&["why", told(file)], 0);
        printed(&["draw", told(file)], 0);
    }
}

/// The rows of a list, as numbers: place, yard, seconds, and each crew's.
fn rows(list: &str) -> Vec<Vec<u64>> {
    let lines: Vec<&str> = list.lines().collect();
    let numbers = |line: &&str| {
        line.split_whitespace()
            .map(|word| word.parse().unwrap())
            .collect()
    };
    lines[2..lines.len() - 1].iter().map(numbers).collect()
}

/// A random district's lists are those of brute force.
#[test]
fn random_districts_are_listed_as_by_brute_force() {
    let mut numbers = Numbers::new(13);
    let folder = folder("random");
    let (mut none, mut some, mut all) = (0, 0, 0);
    for _ in 0..400 {
        let made = district(&mut numbers, 40);
        let [roads, yards] = ["road", "yard"].map(|name| folder.join(name));
        fs::write(&roads, &made.road).unwrap();
        fs::write(&yards, &made.yard).unwrap();
        let asking = Asking::random(&mut numbers, &made);
        let text = printed(&["text", told(&roads), told(&yards)], 0) + &asking.text();
        let file = folder.join("random.district");
        fs::write(&file, text).unwrap();
        asking.assert_listed(&file);
        if let Asked::Within(_) = asking.asked {
            match asking.rows().len() {
                0 => none += 1,
                count if count == made.yards.len() => all += 1,
                _ => some += 1,
            }
        }
    }
    assert!(none > 10 && some > 10 && all > 10, "{none} {some} {all}");
}

/// The longest list: all 256 yards.
#[test]
fn the_longest_list_is_brute_forces() {
    let road = road::read(&standard::road_book("grid", 7).unwrap()).unwrap();
    let yards = yard::read(&standard::yard_book(256, 7).unwrap(), road.junctions).unwrap();
    let asking = Asking {
        yards: yards.junctions(),
        query: Query {
            aggregate: Aggregate::Maximum,
            k: 1,
            limit: u32::MAX,
            crews: vec![0, 1_023, 500],
        },
        road,
        asked: Asked::Within(u32::MAX),
    };
    let file = folder("longest").join("grid.district");
    fs::write(&file, grid("longest-standard") + &asking.text()).unwrap();
    asking.assert_listed(&file);
    assert_eq!(asking.rows().len(), 256);
}
