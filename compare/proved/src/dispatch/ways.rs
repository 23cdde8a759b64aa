//! The shortest way between two junctions.

use compare::road::{Road, RoadBook};

/// The roads of a shortest way; where there are several, the one by lower junctions first.
pub fn way(book: &RoadBook, from: u16, to: u16) -> Vec<Road> {
    let left = book.least_distances(to);
    let mut way = Vec::new();
    let mut here = from;
    while here != to {
        let (next, road) = towards(book, &left, here);
        way.push(road);
        here = next;
    }
    way
}

/// The next junction on a shortest way, by the seconds that are left at each junction, and the road to it.
fn towards(book: &RoadBook, left: &[u32], here: u16) -> (u16, Road) {
    let shortens = |next: u16, road: &Road| {
        left[usize::from(next)] + u32::from(road.seconds) == left[usize::from(here)]
    };
    let roads = book
        .roads
        .iter()
        .filter_map(|road| Some((other_end(road, here)?, *road)));
    let roads = roads.filter(|(next, road)| shortens(*next, road));
    roads
        .min_by_key(|(next, _)| *next)
        .expect("a reached junction has a road that shortens the way")
}

/// The other end of a road that has this end.
fn other_end(road: &Road, end: u16) -> Option<u16> {
    match end {
        _ if end == road.low => Some(road.high),
        _ if end == road.high => Some(road.low),
        _ => None,
    }
}
