//! The road book and the least distance between junctions.

use std::cmp::Reverse;
use std::collections::BinaryHeap;

use crate::book::{close, open, put_u16, u16_at};
use crate::refusal::{refuse_unless, HEADER, RECORD, UNREACHED, VALUE};

/// The most junctions that a book may count.
pub const MOST_JUNCTIONS: u16 = 1_024;
/// The most roads that a book may count.
pub const MOST_ROADS: u16 = 4_096;
/// A road book has version 1 only.
const VERSION: u8 = 1;
/// The distance of a junction that no walk reaches.
pub const NO_WALK: u32 = u32::MAX;

/// The junctions that a walk has reached, the nearest first; one that was reached nearer later stands in it again.
type Reached = BinaryHeap<Reverse<(u32, u16)>>;

/// "per road: low end u16, high end u16, seconds u16".
#[derive(Clone, Copy, Debug, PartialEq, Eq)]
pub struct Road {
    pub low: u16,
    pub high: u16,
    pub seconds: u16,
}

/// A road book that passed, with each junction's roads.
#[derive(Clone, Debug)]
pub struct RoadBook {
    pub junctions: u16,
    pub roads: Vec<Road>,
    neighbours: Vec<Vec<(u16, u16)>>,
}

/// "Road book: junctions u16 (1 to 1,024), roads u16 (0 to 4,096); per road [...]."
///
/// The road book's own tests, in order.
pub fn read(book: &[u8]) -> Result<RoadBook, u32> {
    let book = read_layout(book)?;
    refuse_unless(book.unreached().is_empty(), UNREACHED)?;
    Ok(book)
}

/// Tests 1 to 5: the book may have junctions that can't be reached.
pub fn read_layout(book: &[u8]) -> Result<RoadBook, u32> {
    let (_, fields) = open(book, VERSION)?;
    let (junctions, count) = header(fields)?;
    let roads = records(&fields[4..], count)?;
    values(junctions, &roads)?;
    let neighbours = neighbours(junctions, &roads);
    Ok(RoadBook {
        junctions,
        roads,
        neighbours,
    })
}

/// Test 3: "junctions u16 (1 to 1,024), roads u16 (0 to 4,096)".
fn header(fields: &[u8]) -> Result<(u16, usize), u32> {
    refuse_unless(fields.len() >= 4, HEADER)?;
    let (junctions, roads) = (u16_at(fields, 0), u16_at(fields, 2));
    refuse_unless((1..=MOST_JUNCTIONS).contains(&junctions), HEADER)?;
    refuse_unless(roads <= MOST_ROADS, HEADER)?;
    Ok((junctions, usize::from(roads)))
}

/// Test 4: "A record is incomplete, or bytes follow the last one."
fn records(bytes: &[u8], count: usize) -> Result<Vec<Road>, u32> {
    refuse_unless(bytes.len() == 6 * count, RECORD)?;
    let record = |bytes: &[u8]| Road {
        low: u16_at(bytes, 0),
        high: u16_at(bytes, 2),
        seconds: u16_at(bytes, 4),
    };
    Ok(bytes.chunks(6).map(record).collect())
}

/// Test 5: "Ends are below the junction count, low below high; pairs rise strictly", "seconds u16 (1 to 65,535)".
fn values(junctions: u16, roads: &[Road]) -> Result<(), u32> {
    for road in roads {
        refuse_unless(road.low < road.high && road.high < junctions, VALUE)?;
        refuse_unless(road.seconds >= 1, VALUE)?;
    }
    let rise = |pair: &[Road]| (pair[0].low, pair[0].high) < (pair[1].low, pair[1].high);
    refuse_unless(roads.windows(2).all(rise), VALUE)
}

/// "A road runs both ways": each junction's neighbours, with the seconds to them.
fn neighbours(junctions: u16, roads: &[Road]) -> Vec<Vec<(u16, u16)>> {
    let mut neighbours = vec![Vec::new(); usize::from(junctions)];
    for road in roads {
        neighbours[usize::from(road.low)].push((road.high, road.seconds));
        neighbours[usize::from(road.high)].push((road.low, road.seconds));
    }
    neighbours
}

impl RoadBook {
    /// Test 6: "Some junction can't be reached from junction 0": all such junctions.
    pub fn unreached(&self) -> Vec<u16> {
        let distances = self.least_distances(0);
        let far = |junction: &u16| distances[usize::from(*junction)] == NO_WALK;
        (0..self.junctions).filter(far).collect()
    }

    /// "Distance d(u, v) is the least total of seconds over all walks from u to v, 0 from u to u."
    ///
    /// From one junction to all, by Dijkstra.
    pub fn least_distances(&self, from: u16) -> Vec<u32> {
        let (mut distance, mut reached) = self.start(from);
        while let Some(Reverse((nearest, junction))) = reached.pop() {
            if nearest == distance[usize::from(junction)] {
                self.walk_on(junction, &mut distance, &mut reached);
            }
        }
        distance
    }

    /// The last of a junction's roads by which a least walk comes to it, as the row of distances from the walk's start
    /// tells: the junction at its other end, and its seconds.
    pub fn came_by(&self, row: &[u32], junction: u16) -> (u16, u16) {
        let here = row[usize::from(junction)];
        let comes =
            |(other, seconds): &&(u16, u16)| row[usize::from(*other)] + u32::from(*seconds) == here;
        let mut roads = self.neighbours[usize::from(junction)].iter().rev();
        *roads.find(comes).expect("a least walk comes by a road")
    }

    /// A walk's start: the distances so far, and only its first junction reached.
    fn start(&self, from: u16) -> (Vec<u32>, Reached) {
        let mut distance = vec![NO_WALK; usize::from(self.junctions)];
        distance[usize::from(from)] = 0;
        (distance, Reached::from([Reverse((0, from))]))
    }

    /// Walks on from a junction: each neighbour that is nearer through it is reached.
    fn walk_on(&self, junction: u16, distance: &mut [u32], reached: &mut Reached) {
        let here = distance[usize::from(junction)];
        for &(next, seconds) in &self.neighbours[usize::from(junction)] {
            let through = here + u32::from(seconds);
            if through < distance[usize::from(next)] {
                distance[usize::from(next)] = through;
                reached.push(Reverse((through, next)));
            }
        }
    }

    /// "Border junctions (with a road out of the range) in rising order".
    pub fn border(&self, first: u16, after: u16) -> Vec<u16> {
        let leads_out = |junction: &u16| {
            self.neighbours[usize::from(*junction)]
                .iter()
                .any(|(other, _)| !(first..after).contains(other))
        };
        (first..after).filter(leads_out).collect()
    }
}

/// Least distances by their first junction, each worked out once.
pub struct Distances<'a> {
    book: &'a RoadBook,
    rows: Vec<Option<Vec<u32>>>,
}

impl<'a> Distances<'a> {
    /// No row is known at first.
    pub fn new(book: &'a RoadBook) -> Self {
        let rows = vec![None; usize::from(book.junctions)];
        Distances { book, rows }
    }

    /// d(from, v) for every junction v.
    pub fn from(&mut self, from: u16) -> &[u32] {
        let book = self.book;
        self.rows[usize::from(from)].get_or_insert_with(|| book.least_distances(from))
    }
}

/// Writes a road book of any values.
pub fn write(junctions: u16, roads: &[Road]) -> Vec<u8> {
    let mut fields = Vec::new();
    put_u16(&mut fields, junctions);
    put_u16(&mut fields, roads.len() as u16);
    for road in roads {
        put_u16(&mut fields, road.low);
        put_u16(&mut fields, road.high);
        put_u16(&mut fields, road.seconds);
    }
    close(VERSION, &fields)
}
