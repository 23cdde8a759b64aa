//! Measuring a yard: a least way from it to each crew in turn, until all are reached or the aggregate exceeds the ceiling.

use crate::query::{Aggregate, Query};
use crate::road::RoadBook;

/// What yard order goes by before the junction number: the aggregate, then how far the furthest crew is.
#[derive(Clone, Copy, Debug, PartialEq, Eq, PartialOrd, Ord)]
pub struct Drive {
    pub distance: u32,
    pub furthest: u32,
}

impl Drive {
    /// The drive of these true distances to the crews.
    pub fn over(aggregate: Aggregate, distances: impl Iterator<Item = u32> + Clone) -> Self {
        Drive {
            distance: aggregate.over(distances.clone()),
            furthest: Aggregate::Maximum.over(distances),
        }
    }
}

/// "either the true aggregate or "above", which it gives exactly when the aggregate exceeds the ceiling"; with the
/// aggregate goes the furthest crew's distance, since a yard at the ceiling may still come before one that is held.
#[derive(Clone, Copy, Debug, PartialEq, Eq)]
pub enum Measured {
    Exact(Drive),
    Above,
}

/// A walk's state: where it stands, after how many seconds, and "the junctions it has walked on from", in turn, each with
/// the seconds that led to it.
pub struct Way {
    pub place: u16,
    pub seconds: u32,
    pub walked_on: Vec<(u16, u32)>,
}

/// "measuring finds distances by walks of its own, also takes a ceiling": a yard's answer, and its walks at their ends,
/// each led by its crew's row of distances.
pub fn measure(
    road: &RoadBook,
    rows: &[Vec<u32>],
    query: &Query,
    ceiling: Option<u32>,
    yard: u16,
) -> (Measured, Vec<Way>) {
    let (mut distance, mut furthest) = (0, 0);
    let mut ways = Vec::new();
    for (&crew, row) in query.crews.iter().zip(rows) {
        let with = |seconds: u32| query.aggregate.over([distance, seconds].into_iter());
        let above = |seconds: u32| ceiling.is_some_and(|ceiling| with(seconds) > ceiling);
        let way = Way::walked(road, row, [crew, yard], above);
        let seconds = way.seconds;
        ways.push(way);
        if above(seconds) {
            return (Measured::Above, ways);
        }
        distance = with(seconds);
        furthest = furthest.max(seconds);
    }
    (Measured::Exact(Drive { distance, furthest }), ways)
}

impl Way {
    /// From a yard back to a crew, by the crew's row, until it stands there or is above.
    fn walked(
        road: &RoadBook,
        row: &[u32],
        [crew, yard]: [u16; 2],
        above: impl Fn(u32) -> bool,
    ) -> Self {
        let mut way = Way {
            place: yard,
            seconds: 0,
            walked_on: Vec::new(),
        };
        while !above(way.seconds) && way.place != crew {
            way.step(road, row);
        }
        way
    }

    /// Walks on, back along the road by which a least walk from the row's crew comes to where it stands.
    fn step(&mut self, road: &RoadBook, row: &[u32]) {
        self.walked_on.push((self.place, self.seconds));
        let (other, seconds) = road.came_by(row, self.place);
        self.place = other;
        self.seconds += u32::from(seconds);
    }
}
