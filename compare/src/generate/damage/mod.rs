//! Damaged books and calls: every refusal number, at each of its causes, of both versions of the yard and tree books.
//!
//! All are made from one sound district, whose calls are accepted.

mod bytes;
mod call;
mod query;
mod random;
mod road;
mod shape;
mod sound;
mod tree;
mod untrue;
mod yard;

pub use bytes::{cut, longer, with_count, with_version};
pub use call::{
    accepted, asked_of, build_of, cases, check_of, search_of, searches_of, within_of, Call, Case,
};
pub use query::queries;
pub use random::{damaged_books, random_book, random_damage};
pub use road::roads;
pub use shape::deep_tree;
pub use sound::{
    sound_books, sound_query, sound_road, sound_tree, sound_yard, sound_yards, ASKED, JUNCTIONS, K,
    KINDS, SECONDS, VERSIONS, YARDS,
};
pub use tree::trees;
pub use untrue::{false_distances, false_kinds, false_root, false_trees};
pub use yard::yards;

use bytes::{with_byte, with_u16};

/// A damaged book, what is wrong with it, the refusal it falls to, and its version before the damage.
pub struct Damage {
    pub cause: String,
    pub refusal: u32,
    pub version: u8,
    pub book: Vec<u8>,
}

/// A list of damages under way.
struct Damages {
    of: &'static str,
    version: u8,
    list: Vec<Damage>,
}

impl Damages {
    /// No damage yet of a book of this version.
    fn new(of: &'static str, version: u8) -> Self {
        let list = Vec::new();
        Damages { of, version, list }
    }

    /// Refusals 1, 2 and an incomplete header, which every book has alike; the latest version is the book's own limit.
    fn opening(of: &'static str, sound: &[u8], latest: u8, header: usize) -> Self {
        let mut damages = Damages::new(of, sound[4]);
        let count = sound.len() as u32 - 4;
        for length in 0..5 {
            damages.add(1, "fewer than five bytes", sound[..length].to_vec());
        }
        damages.add(1, "four bytes of 0", vec![0; 4]);
        damages.add(1, "count one short", with_count(sound, count - 1));
        damages.add(1, "count one over", with_count(sound, count + 1));
        damages.add(1, "count the greatest", with_count(sound, u32::MAX));
        damages.add(1, "count of 0", with_count(sound, 0));
        damages.add(1, "cut short", sound[..sound.len() - 1].to_vec());
        damages.add(1, "too long", [sound, &[0]].concat());
        for version in [0, latest + 1, latest + 2, 128 + latest, 255] {
            let cause = format!("version {version}");
            damages.add(2, &cause, with_version(sound, version));
        }
        for length in 0..header {
            let book = cut(sound, sound.len() - 5 - length);
            damages.add(3, "header incomplete", book);
        }
        damages
    }

    /// One more damage.
    fn add(&mut self, refusal: u32, cause: &str, book: Vec<u8>) {
        let cause = format!("{} book of version {}: {cause}", self.of, self.version);
        self.list.push(Damage {
            cause,
            refusal,
            version: self.version,
            book,
        });
    }
}
