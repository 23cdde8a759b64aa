//! What the program `eccentricity` prints.

use std::fmt::Write;

use crate::road::{read, RoadBook};

/// `refused N` alone, or each junction's greatest distance to any junction and the sum of its distances to all.
pub fn eccentricity(road: &[u8]) -> String {
    match read(road) {
        Ok(road) => table(&road),
        Err(refusal) => format!("refused {refusal}\n"),
    }
}

/// The line `junction furthest total`, then a line for each junction in order.
fn table(road: &RoadBook) -> String {
    let mut table = String::from("junction furthest total\n");
    for junction in 0..road.junctions {
        let distances = road.least_distances(junction);
        let furthest = distances.iter().max().copied().unwrap_or(0);
        let total: u64 = distances.iter().map(|&d| u64::from(d)).sum();
        let _ = writeln!(table, "{junction} {furthest} {total}");
    }
    table
}
