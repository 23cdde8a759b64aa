//! Damaged yard books, of both versions.

use super::sound::{sound_yard, sound_yards, VERSIONS};
use super::{cut, longer, with_u16, with_version, Damage, Damages};
use crate::kinds;
use crate::yard::{self, Yard};

/// Damaged yard books of all versions.
pub fn yards() -> Vec<Damage> {
    VERSIONS.into_iter().flat_map(yards_of).collect()
}

/// Damaged yard books of a version.
fn yards_of(version: u8) -> Vec<Damage> {
    let sound = sound_yard(version);
    let mut damages = Damages::opening("yard", &sound, kinds::VERSION, 2);
    damages.add(3, "no yard", with_u16(&sound, 5, 0));
    damages.add(3, "257 yards", with_u16(&sound, 5, 257));
    damages.add(3, "65,535 yards", with_u16(&sound, 5, 65_535));
    records(&mut damages, &sound);
    values(&mut damages);
    if kinds::size(version) > 0 {
        kind_values(&mut damages);
    }
    let no_junction = yards_at(version, &[1, 2, 5, 6, 16]);
    damages.add(8, "yard no junction", no_junction);
    damages.add(8, "yard 1,023", yards_at(version, &[1, 1_023]));
    damages.list
}

/// A yard book of a version with yards at these junctions, each of the first kind.
fn yards_at(version: u8, junctions: &[u16]) -> Vec<u8> {
    let yard = |&junction: &u16| Yard { junction, kinds: 1 };
    let yards: Vec<Yard> = junctions.iter().map(yard).collect();
    yard::write_version(version, &yards)
}

/// Yard books with an incomplete record or bytes after the last one; the other version's records are of another size.
fn records(damages: &mut Damages, sound: &[u8]) {
    let size = 2 + kinds::size(damages.version);
    for bytes in 1..size {
        damages.add(4, "last record cut", cut(sound, bytes));
    }
    damages.add(4, "last yard missing", cut(sound, size));
    damages.add(4, "all yards missing", cut(sound, 5 * size));
    damages.add(4, "a byte follows", longer(sound, &[0]));
    damages.add(4, "a yard follows", longer(sound, &[0, 15, 1][..size]));
    damages.add(4, "one yard too many counted", with_u16(sound, 5, 6));
    damages.add(4, "one yard too few counted", with_u16(sound, 5, 4));
    let other = kinds::VERSION + 1 - damages.version;
    damages.add(4, "the other version's records", with_version(sound, other));
}

/// Yard books with a junction out of range or order.
fn values(damages: &mut Damages) {
    for (cause, junctions) in [
        ("yard 1,024", &[1, 1_024][..]),
        ("yard 65,535", &[1, 65_535]),
        ("yards exchanged", &[2, 1, 5]),
        ("yard twice", &[1, 5, 5]),
        ("last yards fall", &[1, 2, 5, 14, 6]),
    ] {
        damages.add(5, cause, yards_at(damages.version, junctions));
    }
}

/// "a kind byte after its junction, one bit per kind, not 0": version 2 books with a kind byte of 0, and with a yard
/// twice that its kinds would put in order.
fn kind_values(damages: &mut Damages) {
    let mut add = |cause: &str, change: fn(&mut Vec<Yard>)| {
        let mut yards = sound_yards(damages.version);
        change(&mut yards);
        let book = yard::write_version(damages.version, &yards);
        damages.add(5, cause, book);
    };
    add("first kinds 0", |yards| yards[0].kinds = 0);
    add("middle kinds 0", |yards| yards[2].kinds = 0);
    add("last kinds 0", |yards| yards[4].kinds = 0);
    add("all kinds 0", |yards| {
        yards.iter_mut().for_each(|yard| yard.kinds = 0)
    });
    add("a yard twice, kinds rise", |yards| {
        yards[1].junction = 1;
    });
    add("kinds 0 at no junction", |yards| {
        (yards[4].junction, yards[4].kinds) = (16, 0)
    });
}
