//! Damaged query books.

use super::sound::{sound_query, K};
use super::{cut, longer, with_byte, Damage, Damages};
use crate::query;

/// Damaged query books.
pub fn queries() -> Vec<Damage> {
    let sound = sound_query();
    let mut damages = Damages::opening("query", &sound, 1, 7);
    damages.add(4, "last byte missing", cut(&sound, 1));
    damages.add(4, "last crew missing", cut(&sound, 2));
    damages.add(4, "a byte follows", longer(&sound, &[0]));
    damages.add(4, "a crew follows", longer(&sound, &[0, 1]));
    damages.add(4, "one crew too many counted", with_byte(&sound, 11, 3));
    damages.add(4, "one crew too few counted", with_byte(&sound, 11, 1));
    damages.add(4, "no crew counted, two there", with_byte(&sound, 11, 0));
    damages.add(
        4,
        "255 crews counted, two there",
        with_byte(&sound, 11, 255),
    );
    damages.add(10, "no crew", query::write(0, K, 100, &[]));
    damages.add(10, "17 crews", query::write(0, K, 100, &[0; 17]));
    damages.add(10, "255 crews", query::write(0, K, 100, &[0; 255]));
    damages.add(10, "crew no junction", query::write(0, K, 100, &[0, 16]));
    damages.add(10, "crew 65,535", query::write(0, K, 100, &[65_535]));
    damages.add(10, "no crew and k 0", query::write(2, 0, 100, &[]));
    damages.add(11, "k 0", query::write(0, 0, 100, &[0]));
    damages.add(11, "k 65", query::write(0, 65, 100, &[0]));
    damages.add(11, "k 255", query::write(0, 255, 100, &[0]));
    damages.add(11, "aggregate 2", query::write(2, K, 100, &[0]));
    damages.add(11, "aggregate 255", query::write(255, K, 100, &[0]));
    damages.list
}
