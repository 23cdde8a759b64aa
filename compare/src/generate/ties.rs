//! Searches of districts with tied yards, each answer worked out by hand.

use crate::query;
use crate::road::{self, Road};
use crate::search::Asked;
use crate::yard;

/// A search of a crossing: junctions 0 and 1, where crews stand, and yards from junction 2 on, each with a road to
/// both. With the landmark 0 a yard's f and its key are |a − 0| and |a − d| over the crews, a being its seconds from
/// junction 0 and d those of junction 1.
#[derive(Clone, Copy, Debug)]
pub struct Tie {
    /// The seconds of each yard's roads to junctions 0 and 1, neither of which is longer than any way round.
    pub drives: &'static [(u16, u16)],
    pub crews: &'static [u16],
    pub aggregate: u8,
    pub k: u8,
    pub asked: Asked,
    /// The listed yards with their aggregates, on any tree that passes.
    pub list: &'static [(u32, u32)],
    /// The steps and the measured yards, on the tree of one leaf with the landmark 0.
    pub steps: [u32; 2],
}

impl Tie {
    /// The sum for crews at 0 and 1, the first k yards.
    const fn first(
        k: u8,
        drives: &'static [(u16, u16)],
        list: &'static [(u32, u32)],
        steps: [u32; 2],
    ) -> Self {
        Tie {
            drives,
            crews: &[0, 1],
            aggregate: 0,
            k,
            asked: Asked::FirstK,
            list,
            steps,
        }
    }

    /// The same of all yards within so many seconds.
    const fn within(
        seconds: u32,
        drives: &'static [(u16, u16)],
        list: &'static [(u32, u32)],
        steps: [u32; 2],
    ) -> Self {
        Tie {
            asked: Asked::Within(seconds),
            ..Tie::first(1, drives, list, steps)
        }
    }

    /// The same by the maximum.
    const fn by_maximum(self) -> Self {
        Tie {
            aggregate: 1,
            ..self
        }
    }

    /// The same for other crews.
    const fn for_crews(self, crews: &'static [u16]) -> Self {
        Tie { crews, ..self }
    }

    /// The crossing's road book.
    pub fn road(&self) -> Vec<u8> {
        let yards = || (2..).zip(self.drives);
        let from_0 = yards().map(|(high, drive)| (0, high, drive.0));
        let from_1 = yards().map(|(high, drive)| (1, high, drive.1));
        let road = |(low, high, seconds)| Road { low, high, seconds };
        let roads: Vec<Road> = from_0.chain(from_1).map(road).collect();
        road::write(self.junctions(), &roads)
    }

    /// The crossing's yard book.
    pub fn yard(&self) -> Vec<u8> {
        let yards: Vec<u16> = (2..self.junctions()).collect();
        yard::write(&yards)
    }

    /// Two more than the yards.
    fn junctions(&self) -> u16 {
        self.drives.len() as u16 + 2
    }

    /// The query book with this limit.
    pub fn query(&self, limit: u32) -> Vec<u8> {
        query::write(self.aggregate, self.k, limit, self.crews)
    }

    /// A result area of so many words, each of them 7, after the settled search.
    pub fn results(&self, room: usize) -> Vec<u32> {
        let words = |&(yard, distance)| [yard, distance];
        let mut words: Vec<u32> = self.list.iter().flat_map(words).collect();
        words.resize(room, 7);
        words
    }
}

/// Two yards of 10 seconds, whose furthest crews are at 5 and 8; the root's key is 2 + (10 − 5) = 7, each yard's 10. The
/// leaf is taken twice, then yards 2 and 3 are measured. The fairer one has the lower number, then the higher.
const TWO: [Tie; 4] = [
    Tie::first(1, &[(5, 5), (2, 8)], &[(2, 10)], [4, 2]),
    Tie::first(2, &[(5, 5), (2, 8)], &[(2, 10), (3, 10)], [4, 2]),
    Tie::first(1, &[(2, 8), (5, 5)], &[(3, 10)], [4, 2]),
    Tie::first(2, &[(2, 8), (5, 5)], &[(3, 10), (2, 10)], [4, 2]),
];

/// Three yards of 10 seconds, whose furthest crews are at 5, 6 and 8, in each order of their numbers; the keys are the
/// same. The leaf is taken three times, then yards 2, 3 and 4 are measured, the last, for k 1 and 2, under a ceiling
/// that it equals.
const THREE: [Tie; 10] = [
    Tie::first(1, &[(5, 5), (4, 6), (2, 8)], &[(2, 10)], [6, 3]),
    Tie::first(1, &[(2, 8), (4, 6), (5, 5)], &[(4, 10)], [6, 3]),
    Tie::first(1, &[(4, 6), (2, 8), (5, 5)], &[(4, 10)], [6, 3]),
    Tie::first(1, &[(2, 8), (5, 5), (4, 6)], &[(3, 10)], [6, 3]),
    Tie::first(2, &[(5, 5), (2, 8), (4, 6)], &[(2, 10), (4, 10)], [6, 3]),
    Tie::first(2, &[(2, 8), (4, 6), (5, 5)], &[(4, 10), (3, 10)], [6, 3]),
    Tie::first(2, &[(2, 8), (5, 5), (4, 6)], &[(3, 10), (4, 10)], [6, 3]),
    Tie::first(2, &[(4, 6), (2, 8), (5, 5)], &[(4, 10), (2, 10)], [6, 3]),
    Tie::first(
        3,
        &[(4, 6), (5, 5), (2, 8)],
        &[(3, 10), (2, 10), (4, 10)],
        [6, 3],
    ),
    Tie::first(
        64,
        &[(2, 8), (4, 6), (5, 5)],
        &[(4, 10), (3, 10), (2, 10)],
        [6, 3],
    ),
];

/// Yards of 10 seconds whose furthest crews are at 7, or at 7 and 6: of those at 7, and of those at 6, the lower number
/// comes first. The root's key is 3 + (10 − 7) = 6, each yard's 10: all are measured.
const EQUAL: [Tie; 4] = [
    Tie::first(1, &[(3, 7), (7, 3), (3, 7)], &[(2, 10)], [6, 3]),
    Tie::first(2, &[(3, 7), (7, 3), (3, 7)], &[(2, 10), (3, 10)], [6, 3]),
    Tie::first(2, &[(7, 3), (3, 7), (7, 3)], &[(2, 10), (3, 10)], [6, 3]),
    Tie::first(
        3,
        &[(3, 7), (4, 6), (7, 3), (6, 4)],
        &[(3, 10), (5, 10), (2, 10)],
        [8, 4],
    ),
];

/// The sum comes first: yard 3 is 5 + 6 = 11 seconds away, and its furthest crew is nearer than yard 2's, which is
/// 2 + 8 away. Its key is |5 − 0| + |5 − 10| = 10, so that it is measured all the same.
const SUM_FIRST: [Tie; 2] = [
    Tie::first(1, &[(2, 8), (5, 6)], &[(2, 10)], [4, 2]),
    Tie::first(2, &[(2, 8), (5, 6)], &[(2, 10), (3, 11)], [4, 2]),
];

/// Yards 2, 3 and 4 are 2 + 8, 5 + 6 and 5 + 5 seconds away; the root's key is 2 + (10 − 5) = 7, every yard's 10. At 6
/// seconds no step is taken, at 9 the root's, from 10 on all six.
const DRIVES: [Tie; 5] = [
    Tie::within(6, &[(2, 8), (5, 6), (5, 5)], &[], [0, 0]),
    Tie::within(9, &[(2, 8), (5, 6), (5, 5)], &[], [1, 0]),
    Tie::within(10, &[(2, 8), (5, 6), (5, 5)], &[(4, 10), (2, 10)], [6, 3]),
    Tie::within(
        11,
        &[(2, 8), (5, 6), (5, 5)],
        &[(4, 10), (2, 10), (3, 11)],
        [6, 3],
    ),
    Tie::within(
        10,
        &[(3, 7), (4, 6), (7, 3), (6, 4)],
        &[(3, 10), (5, 10), (2, 10), (4, 10)],
        [8, 4],
    ),
];

/// By the maximum the furthest crew is the aggregate, and the number alone decides between equals, whatever the sums
/// are. Yards 2, 3 and 4 are 8, 8 and 5 seconds away, which are also their keys, and the root's is 2: the leaf and yard
/// 4 are taken, then the leaf twice and yards 2 and 3. Of the last two, at 8 seconds each, yard 2 has the greater sum.
const MAXIMUM: [Tie; 6] = [
    Tie::first(1, &[(2, 8), (8, 2), (5, 5)], &[(4, 5)], [2, 1]).by_maximum(),
    Tie::first(2, &[(2, 8), (8, 2), (5, 5)], &[(4, 5), (2, 8)], [6, 3]).by_maximum(),
    Tie::within(7, &[(2, 8), (8, 2), (5, 5)], &[(4, 5)], [2, 1]).by_maximum(),
    Tie::within(
        8,
        &[(2, 8), (8, 2), (5, 5)],
        &[(4, 5), (2, 8), (3, 8)],
        [6, 3],
    )
    .by_maximum(),
    Tie::first(1, &[(8, 8), (2, 8)], &[(2, 8)], [4, 2]).by_maximum(),
    Tie::within(8, &[(8, 8), (2, 8)], &[(2, 8), (3, 8)], [4, 2]).by_maximum(),
];

/// Two crews at one junction are two. At junction 0: 3 + 3 + 7 and 4 + 4 + 5, both 13; junction 1 is 9 away, so the
/// keys are 3 + 3 + 6 = 12 and 13, and yard 3 is measured last, under a ceiling of 13. At junction 1, which is 6 away:
/// 6 + 2 + 2 and 2 + 4 + 4, both 10; the keys are 6 + 0 + 0 and 10.
const CREWS: [Tie; 5] = [
    Tie::first(1, &[(3, 7), (4, 5)], &[(3, 13)], [4, 2]).for_crews(&[0, 0, 1]),
    Tie::first(2, &[(3, 7), (4, 5)], &[(3, 13), (2, 13)], [4, 2]).for_crews(&[0, 1, 0]),
    Tie::within(13, &[(3, 7), (4, 5)], &[(3, 13), (2, 13)], [4, 2]).for_crews(&[1, 0, 0]),
    Tie::first(1, &[(6, 2), (2, 4)], &[(3, 10)], [4, 2]).for_crews(&[0, 1, 1]),
    Tie::within(10, &[(6, 2), (2, 4)], &[(3, 10), (2, 10)], [4, 2]).for_crews(&[0, 1, 1]),
];

/// All of them.
pub fn ties() -> Vec<Tie> {
    let parts: [&[Tie]; 7] = [&TWO, &THREE, &EQUAL, &SUM_FIRST, &DRIVES, &MAXIMUM, &CREWS];
    parts.concat()
}
