//! Damaged road books.

use super::sound::{chain, sound_road, JUNCTIONS};
use super::{cut, longer, with_u16, Damage, Damages};
use crate::road::{self, Road};

/// Damaged road books.
pub fn roads() -> Vec<Damage> {
    let sound = sound_road();
    let mut damages = Damages::opening("road", &sound, 1, 4);
    damages.add(3, "no junction", with_u16(&sound, 5, 0));
    damages.add(3, "1,025 junctions", with_u16(&sound, 5, 1_025));
    damages.add(3, "65,535 junctions", with_u16(&sound, 5, 65_535));
    damages.add(3, "4,097 roads", with_u16(&sound, 7, 4_097));
    damages.add(4, "last byte missing", cut(&sound, 1));
    damages.add(4, "last road missing", cut(&sound, 6));
    damages.add(4, "a byte follows", longer(&sound, &[0]));
    damages.add(4, "a road follows", longer(&sound, &[0; 6]));
    damages.add(4, "one road too many counted", with_u16(&sound, 7, 16));
    damages.add(4, "one road too few counted", with_u16(&sound, 7, 14));
    road_values(&mut damages);
    unreached(&mut damages);
    damages.list
}

/// Road books with a value out of range or order.
fn road_values(damages: &mut Damages) {
    let mut add = |cause: &str, change: fn(&mut Vec<Road>)| {
        let mut roads = chain();
        change(&mut roads);
        damages.add(5, cause, road::write(JUNCTIONS, &roads));
    };
    add("seconds 0", |roads| roads[3].seconds = 0);
    add("last road's seconds 0", |roads| roads[14].seconds = 0);
    add("ends equal", |roads| roads[3].high = 3);
    add("ends exchanged", |roads| {
        (roads[3].low, roads[3].high) = (4, 3)
    });
    add("high end no junction", |roads| roads[14].high = 16);
    add("both ends no junctions", |roads| {
        (roads[14].low, roads[14].high) = (16, 17)
    });
    add("roads exchanged", |roads| roads.swap(4, 5));
    add("road twice", |roads| roads.insert(4, roads[4]));
    add("high ends fall", |roads| {
        let high = 9;
        roads.insert(4, Road { high, ..roads[4] })
    });
}

/// Road books with a junction out of reach.
fn unreached(damages: &mut Damages) {
    let without = |place: usize| {
        let mut roads = chain();
        roads.remove(place);
        road::write(JUNCTIONS, &roads)
    };
    damages.add(6, "two junctions, no road", road::write(2, &[]));
    damages.add(6, "junction 0 apart", without(0));
    damages.add(6, "last junction apart", without(14));
    damages.add(6, "two halves", without(7));
    damages.add(6, "one junction over", with_u16(&sound_road(), 5, 17));
}
