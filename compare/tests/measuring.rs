//! Measuring a yard under a ceiling: ways worked out by hand, and against all distances.

use compare::brute;
use compare::generate::district::{district, query_book};
use compare::generate::Numbers;
use compare::query::{self, Aggregate, Query};
use compare::road::{self, Road, RoadBook};
use compare::search::measure::Measured::{self, Above, Exact};
use compare::search::measure::{measure, Drive, Way};

const AGGREGATES: [Aggregate; 2] = [Aggregate::Sum, Aggregate::Maximum];

/// A district with these roads: low end, high end, seconds.
fn district_of(roads: &[(u16, u16, u16)]) -> RoadBook {
    let road = |&(low, high, seconds): &(u16, u16, u16)| Road { low, high, seconds };
    let roads: Vec<Road> = roads.iter().map(road).collect();
    let junctions = roads.iter().map(|road| road.high + 1).max().unwrap();
    road::read(&road::write(junctions, &roads)).unwrap()
}

/// Net N: a chain with junctions at 0, 2, 5, 9 and 10 seconds from junction 0.
fn net_n() -> RoadBook {
    district_of(&[(0, 1, 2), (1, 2, 3), (2, 3, 4), (3, 4, 1)])
}

/// A chain of 1,024 junctions, one second from each to the next.
fn long_chain() -> RoadBook {
    let roads: Vec<(u16, u16, u16)> = (0..1_023).map(|low| (low, low + 1, 1)).collect();
    district_of(&roads)
}

/// A yard that is measured: the aggregate, and the furthest crew's distance.
fn exact(distance: u32, furthest: u32) -> Measured {
    Exact(Drive { distance, furthest })
}

/// A query for the aggregate over these crews.
fn query_for(aggregate: Aggregate, crews: &[u16]) -> Query {
    Query {
        aggregate,
        k: 1,
        limit: 0,
        crews: crews.to_vec(),
    }
}

/// The crews' rows of distances.
fn rows(road: &RoadBook, query: &Query) -> Vec<Vec<u32>> {
    let row = |&crew: &u16| road.least_distances(crew);
    query.crews.iter().map(row).collect()
}

/// The answer, and of each way the junctions walked on from, in turn.
fn measured(
    road: &RoadBook,
    query: &Query,
    ceiling: Option<u32>,
    yard: u16,
) -> (Measured, Vec<Vec<u16>>) {
    let (measured, ways) = measure(road, &rows(road, query), query, ceiling, yard);
    let junctions = |way: &Way| way.walked_on.iter().map(|walked| walked.0).collect();
    (measured, ways.iter().map(junctions).collect())
}

/// Yard 0, crews at 2 and 10 seconds. The second way stands at 0, 2, 5, 9 and 10 seconds, with the first at 2 more.
#[test]
fn a_sum_stops_above_the_ceiling() {
    let (road, query) = (net_n(), query_for(Aggregate::Sum, &[1, 4]));
    for (ceiling, answer, second) in [
        (None, exact(12, 10), &[0, 1, 2, 3][..]),
        (Some(13), exact(12, 10), &[0, 1, 2, 3]),
        (Some(12), exact(12, 10), &[0, 1, 2, 3]),
        (Some(11), Above, &[0, 1, 2, 3]),
        (Some(10), Above, &[0, 1, 2]),
        (Some(7), Above, &[0, 1, 2]),
        (Some(6), Above, &[0, 1]),
        (Some(4), Above, &[0, 1]),
        (Some(3), Above, &[0]),
        (Some(2), Above, &[0]),
    ] {
        let expected = (answer, vec![vec![0], second.to_vec()]);
        assert_eq!(measured(&road, &query, ceiling, 0), expected, "{ceiling:?}");
    }
    for ceiling in [1, 0] {
        let expected = (Above, vec![vec![0]]);
        assert_eq!(measured(&road, &query, Some(ceiling), 0), expected);
    }
}

/// The same yard and crews: the second way stands at 2, 2, 5, 9 and 10.
#[test]
fn a_maximum_stops_above_the_ceiling() {
    let (road, query) = (net_n(), query_for(Aggregate::Maximum, &[1, 4]));
    for (ceiling, answer, second) in [
        (None, exact(10, 10), &[0, 1, 2, 3][..]),
        (Some(11), exact(10, 10), &[0, 1, 2, 3]),
        (Some(10), exact(10, 10), &[0, 1, 2, 3]),
        (Some(9), Above, &[0, 1, 2, 3]),
        (Some(8), Above, &[0, 1, 2]),
        (Some(5), Above, &[0, 1, 2]),
        (Some(4), Above, &[0, 1]),
        (Some(2), Above, &[0, 1]),
    ] {
        let expected = (answer, vec![vec![0], second.to_vec()]);
        assert_eq!(measured(&road, &query, ceiling, 0), expected, "{ceiling:?}");
    }
    for ceiling in [1, 0] {
        let expected = (Above, vec![vec![0]]);
        assert_eq!(measured(&road, &query, Some(ceiling), 0), expected);
    }
}

/// Of 1,024 junctions in a chain, with the yard at its start: a ceiling of 100 is exceeded by 101, 10 + 91 and a
/// maximum of 101.
#[test]
fn a_far_yard_is_a_short_walk() {
    let road = long_chain();
    for (crews, aggregate, under, whole) in [
        ([1_000, 1_023], Aggregate::Sum, &[101][..], [1_000, 1_023]),
        ([10, 1_023], Aggregate::Sum, &[10, 91], [10, 1_023]),
        ([10, 1_023], Aggregate::Maximum, &[10, 101], [10, 1_023]),
    ] {
        let query = query_for(aggregate, &crews);
        let steps = |ways: Vec<Vec<u16>>| ways.iter().map(Vec::len).collect::<Vec<_>>();
        let (answer, ways) = measured(&road, &query, Some(100), 0);
        assert_eq!((answer, &steps(ways)[..]), (Above, under));
        let (_, ways) = measured(&road, &query, None, 0);
        assert_eq!(steps(ways), whole);
    }
}

/// Two crews 10 seconds away: the second way stands at 10, 12, 15, 19 and 20 seconds.
#[test]
fn two_crews_at_one_junction_are_two() {
    let (road, sum) = (net_n(), query_for(Aggregate::Sum, &[4, 4]));
    let whole = vec![0, 1, 2, 3];
    for (ceiling, answer, ways) in [
        (None, exact(20, 10), vec![whole.clone(), whole.clone()]),
        (Some(20), exact(20, 10), vec![whole.clone(), whole.clone()]),
        (Some(19), Above, vec![whole.clone(), whole.clone()]),
        (Some(17), Above, vec![whole.clone(), vec![0, 1, 2]]),
        (Some(9), Above, vec![whole.clone()]),
    ] {
        assert_eq!(measured(&road, &sum, ceiling, 0), (answer, ways));
    }
    let maximum = query_for(Aggregate::Maximum, &[4, 4]);
    assert_eq!(measured(&road, &maximum, Some(10), 0).0, exact(10, 10));
    assert_eq!(measured(&road, &maximum, Some(9), 0).0, Above);
}

/// Yard 2: junctions 3 and 4 are at 4 and 5 seconds. Its own crew counts 0, by a way of no step.
#[test]
fn a_crew_at_the_yard() {
    for aggregate in AGGREGATES {
        let (road, query) = (net_n(), query_for(aggregate, &[2, 4]));
        for (ceiling, answer, second) in [
            (None, exact(5, 5), vec![2, 3]),
            (Some(5), exact(5, 5), vec![2, 3]),
            (Some(4), Above, vec![2, 3]),
            (Some(3), Above, vec![2]),
        ] {
            let expected = (answer, vec![vec![], second]);
            assert_eq!(measured(&road, &query, ceiling, 2), expected);
        }
    }
}

/// No step is needed, and no ceiling is exceeded.
#[test]
fn all_crews_at_the_yard() {
    for aggregate in AGGREGATES {
        let (road, query) = (net_n(), query_for(aggregate, &[3, 3, 3]));
        for ceiling in [None, Some(0), Some(1)] {
            let expected = (exact(0, 0), vec![vec![]; 3]);
            assert_eq!(measured(&road, &query, ceiling, 3), expected);
        }
    }
}

/// The road from junction 0 to 1 takes 10 seconds, the way through junction 2 takes 2: then comes junction 3, at 22.
#[test]
fn a_longer_road_is_passed_over() {
    let road = district_of(&[(0, 1, 10), (0, 2, 1), (1, 2, 1), (1, 3, 20)]);
    for aggregate in AGGREGATES {
        let query = query_for(aggregate, &[3]);
        for (ceiling, answer) in [(15, Above), (21, Above), (22, exact(22, 22))] {
            let expected = (answer, vec![vec![0, 2, 1]]);
            assert_eq!(measured(&road, &query, Some(ceiling), 0), expected);
        }
    }
}

/// Of two roads by which a least walk comes, the last in the book is taken.
#[test]
fn the_last_road_is_taken() {
    let road = district_of(&[(0, 1, 1), (0, 2, 1), (1, 3, 1), (2, 3, 1)]);
    let query = query_for(Aggregate::Sum, &[0]);
    let expected = (exact(2, 2), vec![vec![3, 2]]);
    assert_eq!(measured(&road, &query, None, 3), expected);
}

/// Each way is a least one, "none of them is further than the ceiling along that walk" nor is the aggregate with the crews
/// before; it ends at its crew or, the last one, above the ceiling, and no crew is left out but after that.
fn assert_ways(
    ways: &[Way],
    all: &[Vec<u64>],
    query: &Query,
    ceiling: Option<u32>,
    yard: u16,
) -> bool {
    let above = |total: u64| ceiling.is_some_and(|ceiling| total > ceiling.into());
    let mut before = 0;
    for (way, &crew) in ways.iter().zip(&query.crews) {
        assert!(!above(before));
        let row = &all[usize::from(crew)];
        let least = row[usize::from(yard)];
        let with = |seconds: u32| query.aggregate.over([before, seconds.into()].into_iter());
        for &(junction, seconds) in &way.walked_on {
            let to_yard = all[usize::from(junction)][usize::from(yard)];
            assert_eq!((to_yard, junction == crew), (seconds.into(), false));
            assert_eq!(row[usize::from(junction)] + to_yard, least);
            assert!(!above(with(seconds)) && ceiling.is_none_or(|ceiling| seconds <= ceiling));
        }
        assert!(way.walked_on.windows(2).all(|pair| pair[0].1 < pair[1].1));
        assert!(way.place == crew || above(with(way.seconds)));
        before = with(way.seconds);
    }
    assert!(above(before) || ways.len() == query.crews.len());
    above(before)
}

/// "answers either the true aggregate or "above", which it gives exactly when the aggregate exceeds the ceiling"; with
/// the aggregate the furthest crew's distance.
fn assert_measured(
    road: &RoadBook,
    rows: &[Vec<u32>],
    all: &[Vec<u64>],
    query: &Query,
    ceiling: Option<u32>,
    yard: u16,
) -> Measured {
    let aggregate = brute::ranked(all, &[yard], query)[0].0 as u32;
    let furthest = brute::furthest(all, yard, query) as u32;
    let expected = match ceiling {
        Some(ceiling) if aggregate > ceiling => Above,
        _ => exact(aggregate, furthest),
    };
    let (answer, ways) = measure(road, rows, query, ceiling, yard);
    assert_eq!(answer, expected);
    let above = assert_ways(&ways, all, query, ceiling, yard);
    assert_eq!(above, answer == Above);
    answer
}

/// No ceiling, and ceilings at an aggregate, one below and one above it, anywhere below it, the least and the greatest.
fn ceilings(numbers: &mut Numbers, aggregate: u32) -> [Option<u32>; 7] {
    [
        None,
        Some(aggregate),
        Some(aggregate.saturating_sub(1)),
        Some(aggregate + 1),
        Some(numbers.between(0, aggregate.into()) as u32),
        Some(0),
        Some(u32::MAX),
    ]
}

#[test]
fn measured_by_brute_force() {
    let mut numbers = Numbers::new(11);
    let (mut exact, mut above) = (0, 0);
    for turn in 0..3_000 {
        let d = district(&mut numbers, if turn % 40 == 0 { 120 } else { 30 });
        let road = road::read(&d.road).unwrap();
        let all = brute::all_distances(&road);
        let book = query_book(&mut numbers, d.junctions);
        let crews = query::read(&book, d.junctions).unwrap().crews;
        let queries = AGGREGATES.map(|aggregate| query_for(aggregate, &crews));
        let rows = rows(&road, &queries[0]);
        for yard in d.yards {
            for query in &queries {
                let aggregate = brute::ranked(&all, &[yard], query)[0].0 as u32;
                for ceiling in ceilings(&mut numbers, aggregate) {
                    match assert_measured(&road, &rows, &all, query, ceiling, yard) {
                        Exact(_) => exact += 1,
                        Above => above += 1,
                    }
                }
            }
        }
    }
    assert!(exact >= 100_000 && above >= 100_000, "{exact} {above}");
}
