//! Yards with the same sum: the one whose furthest crew is nearer comes first, and only then the lower number.

use compare::build::AREA_BYTES;
use compare::generate::call::seconds;
use compare::generate::district::{random_tree, tied_district, tied_query};
use compare::generate::ties::{ties, Tie};
use compare::generate::Numbers;
use compare::kinds::ALL;
use compare::query::{self, Aggregate, Query};
use compare::refusal::WORK_WORDS;
use compare::{ask, ask_by, brute, build, road, tree, Asked, Found, Measuring};

/// The tree of a tie's books.
fn built(tie: &Tie, m: u32, leaf_limit: u32) -> Vec<u8> {
    let mut area = vec![0; AREA_BYTES];
    let work = &mut [0; WORK_WORDS];
    let built = build(&tie.road(), &tie.yard(), m, leaf_limit, work, &mut area);
    assert_eq!(built.refusal, 0);
    area.truncate(built.length as usize);
    area
}

/// What the search answers with this limit, and the result area after it, which had 7 in each word.
fn answer(tie: &Tie, way: Measuring, tree: &[u8], limit: u32) -> (Found, Vec<u32>) {
    let (road, query) = (tie.road(), tie.query(limit));
    let (work, mut results) = (&mut [0; WORK_WORDS], vec![7; 128]);
    let found = ask_by(
        way,
        tie.asked,
        ALL,
        [&road, tree, &query],
        work,
        &mut results,
    );
    (found, results)
}

/// On the tree of one leaf: the list, the steps and the measured yards, in every way of measuring.
#[test]
fn worked_by_hand() {
    for tie in ties() {
        let tree = built(&tie, 1, 256);
        let [taken, measured] = tie.steps;
        let settled = Found {
            refusal: 0,
            settled: 1,
            listed: tie.list.len() as u32,
            taken,
            measured,
        };
        for way in [
            Measuring::Ways,
            Measuring::WaysWithoutCeiling,
            Measuring::WholeWalks,
            Measuring::Rows,
        ] {
            let expected = (settled, tie.results(128));
            assert_eq!(answer(&tie, way, &tree, u32::MAX), expected, "{tie:?}");
        }
    }
}

/// "spent" writes nothing, one step short of settling too; at that limit the fairer yard comes first.
#[test]
fn at_a_step_limit() {
    for tie in ties() {
        let tree = built(&tie, 1, 256);
        let [taken, _] = tie.steps;
        for limit in 0..taken {
            let (found, results) = answer(&tie, Measuring::Ways, &tree, limit);
            let counts = [found.settled, found.listed, found.taken];
            assert_eq!(counts, [0, 0, limit], "{tie:?}");
            assert_eq!(results, [7; 128], "{tie:?}");
        }
        let (found, results) = answer(&tie, Measuring::Ways, &tree, taken);
        assert_eq!((found.settled, results), (1, tie.results(128)), "{tie:?}");
    }
}

/// Other trees change steps, not lists; brute force has the same ones.
#[test]
fn on_every_tree() {
    for tie in ties() {
        for (m, leaf_limit) in [(1, 1), (1, 2), (2, 1), (3, 2), (4, 3), (4, 256)] {
            let tree = built(&tie, m, leaf_limit);
            let (_, results) = answer(&tie, Measuring::Ways, &tree, u32::MAX);
            assert_eq!(results, tie.results(128), "{tie:?}");
        }
        let road = road::read(&tie.road()).unwrap();
        let tree = tree::read(&built(&tie, 1, 1), road.junctions).unwrap();
        let query = query::read(&tie.query(0), road.junctions).unwrap();
        let brute = brute::list(tie.asked, ALL, &road, &tree, &query).into_iter();
        let brute: Vec<(u32, u32)> = brute.map(|(d, yard)| (yard.into(), d as u32)).collect();
        assert_eq!(brute, tie.list, "{tie:?}");
    }
}

/// A random district's search that settles, and all its yards in yard order.
struct Random {
    books: [Vec<u8>; 3],
    asked: Asked,
    query: Query,
    ranked: Vec<(u64, u16)>,
}

impl Random {
    /// A district of at most 40 junctions, with any tree that passes.
    fn new(numbers: &mut Numbers) -> Self {
        let d = tied_district(numbers, 40);
        let road = road::read(&d.road).unwrap();
        let tree = tree::write(&random_tree(numbers, &road, &d.book));
        let mut book = tied_query(numbers, d.junctions, d.yards.len());
        book[7..11].copy_from_slice(&u32::MAX.to_be_bytes());
        let query = query::read(&book, d.junctions).unwrap();
        let asked = match numbers.once_in(2) {
            true => Asked::FirstK,
            false => Asked::Within(seconds(numbers, &road, &d.yards, &book)),
        };
        let all = brute::crew_distances(&road, &query);
        Random {
            ranked: brute::ranked(&all, &d.yards, &query),
            books: [d.road, tree, book],
            asked,
            query,
        }
    }

    /// The list, as (distance, yard).
    fn list(&self) -> Vec<(u64, u16)> {
        let books = self.books.each_ref().map(|book| &book[..]);
        let (work, mut results) = (&mut [0; WORK_WORDS], [0; 128]);
        let found = ask(self.asked, ALL, books, work, &mut results);
        assert_eq!((found.refusal, found.settled), (0, 1));
        let pairs = results.chunks(2).take(found.listed as usize);
        pairs.map(|p| (p[1].into(), p[0] as u16)).collect()
    }

    /// The list if yards went by their aggregate and then their number alone.
    fn by_number(&self) -> Vec<(u64, u16)> {
        let mut yards = self.ranked.clone();
        yards.sort_unstable();
        match self.asked {
            Asked::FirstK => yards.truncate(self.query.k),
            Asked::Within(seconds) => yards.retain(|&(d, _)| d <= u64::from(seconds)),
        }
        yards
    }
}

/// The list's aggregates are, place by place, those of the order by aggregate and number; by the maximum so is the
/// whole list. By the sum the order is often another, and at times so are the first k yards.
#[test]
fn aggregates_are_those_of_the_order_by_number() {
    let mut numbers = Numbers::new(14);
    let (mut other_order, mut other_yards) = (0, 0);
    for _ in 0..20_000 {
        let random = Random::new(&mut numbers);
        let (list, by_number) = (random.list(), random.by_number());
        let aggregates = |list: &[(u64, u16)]| -> Vec<u64> { list.iter().map(|p| p.0).collect() };
        assert_eq!(aggregates(&list), aggregates(&by_number));
        if random.query.aggregate == Aggregate::Maximum {
            assert_eq!(list, by_number);
        }
        other_order += u32::from(list != by_number);
        other_yards += u32::from(list.iter().any(|yard| !by_number.contains(yard)));
    }
    assert!(other_order >= 4_000, "{other_order}");
    assert!(other_yards >= 500, "{other_yards}");
}
