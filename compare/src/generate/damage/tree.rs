//! Damaged tree books, of both versions.

use super::shape::{leaf_shapes, range_shapes, tree_shapes};
use super::sound::{changed_tree, sound_tree, tree_value, VERSIONS};
use super::{cut, longer, with_byte, with_u16, with_version, Damage, Damages};
use crate::kinds;
use crate::tree::{self, Entry, Stored, Tree, MOST_DISTANCE};

/// Damaged tree books of all versions that fall to 1 to 8 whatever the yard book.
pub fn trees() -> Vec<Damage> {
    VERSIONS.into_iter().flat_map(trees_of).collect()
}

/// Damaged tree books of a version.
fn trees_of(version: u8) -> Vec<Damage> {
    let sound = sound_tree(version);
    let mut damages = Damages::opening("tree", &sound, kinds::VERSION, 7);
    counts(&mut damages, &sound);
    records(&mut damages, &sound);
    changed_records(&mut damages);
    values(&mut damages);
    list_values(&mut damages);
    if kinds::size(version) > 0 {
        kind_values(&mut damages);
    }
    tree_shapes(&mut damages);
    range_shapes(&mut damages);
    leaf_shapes(&mut damages);
    let more = changed_tree(version, |t| t.junctions = 17);
    damages.add(8, "more junctions than the road book", more);
    let fewer = changed_tree(version, |t| t.junctions = 15);
    damages.add(5, "fewer junctions than the ranges", fewer);
    damages.list
}

/// Tree books with a count outside its limits.
fn counts(damages: &mut Damages, sound: &[u8]) {
    for junctions in [0, 1_025] {
        damages.add(3, "junction count", with_u16(sound, 5, junctions));
    }
    for regions in [0, 512, 65_535] {
        damages.add(3, "region count", with_u16(sound, 7, regions));
    }
    for yards in [0, 257] {
        damages.add(3, "yard count", with_u16(sound, 9, yards));
    }
    for m in [0, 5] {
        damages.add(3, "landmark count", with_byte(sound, 11, m));
    }
}

/// Tree books with an incomplete record or bytes after the last one: the last region is a leaf of one yard with two
/// landmarks. In version 2 the last byte is a kind byte, and so is the last byte of a region's start.
fn records(damages: &mut Damages, sound: &[u8]) {
    let kind = kinds::size(damages.version);
    let (start, list) = (7 + kind, 2 + 6 + kind);
    damages.add(4, "last byte missing", cut(sound, 1));
    damages.add(4, "last pair cut", cut(sound, 1 + kind));
    damages.add(4, "last pair missing", cut(sound, 6 + kind));
    damages.add(4, "last list missing", cut(sound, list));
    damages.add(4, "first list's last byte missing", cut(sound, list + 1));
    damages.add(4, "last region missing", cut(sound, start + 2 * list));
    damages.add(4, "last region's start cut", cut(sound, 2 * list + 1));
    damages.add(4, "last region's start alone", cut(sound, 2 * list));
    damages.add(4, "no region", cut(sound, sound.len() - 12));
    damages.add(4, "a byte follows", longer(sound, &[0]));
    damages.add(4, "a region too many counted", with_u16(sound, 7, 5));
    damages.add(4, "a region too few counted", with_u16(sound, 7, 3));
    damages.add(4, "fewer landmarks counted", with_byte(sound, 11, 1));
    damages.add(4, "more landmarks counted", with_byte(sound, 11, 3));
    let other = kinds::VERSION + 1 - damages.version;
    damages.add(4, "the other version's records", with_version(sound, other));
}

/// Tree books with a record of another size than its bytes.
fn changed_records(damages: &mut Damages) {
    let version = damages.version;
    let more = changed_tree(version, |t| t.regions[3].yards += 1);
    damages.add(4, "a yard too many in the last leaf", more);
    let fewer = changed_tree(version, |t| t.regions[3].yards -= 1);
    damages.add(4, "a yard too few in the last leaf", fewer);
    let most = changed_tree(version, |t| t.regions[3].yards = 65_535);
    damages.add(4, "65,535 yards in the last leaf", most);
    let inner = changed_tree(version, |t| t.regions[1].children = 2);
    damages.add(4, "a leaf with children", inner);
    let first = changed_tree(version, |t| t.regions[0].after = 0);
    damages.add(4, "first value bad, last record cut", cut(&first, 1));
}

/// Tree books with a region's value out of range.
fn values(damages: &mut Damages) {
    let mut add = |cause: &str, change: fn(&mut Tree)| {
        damages.add(5, cause, changed_tree(damages.version, change));
    };
    add("range empty", |t| t.regions[1].after = 0);
    add("range backwards", |t| t.regions[2].after = 3);
    add("range past the junctions", |t| t.regions[3].after = 17);
    add("root past the junctions", |t| t.regions[0].after = 17);
    add("one child", |t| t.regions[0].children = 1);
    add("five children", |t| t.regions[0].children = 5);
    add("255 children", |t| t.regions[0].children = 255);
    add("no yard in the root", |t| t.regions[0].yards = 0);
    add("no yard in a leaf", |t| {
        t.regions[1].yards = 0;
        for landmark in &mut t.regions[1].landmarks {
            landmark.stored = Stored::List(Vec::new());
        }
    });
    add("landmark below the range", |t| {
        t.regions[2].landmarks[1].junction = 3
    });
    add("landmark at the range's end", |t| {
        t.regions[2].landmarks[1].junction = 8
    });
    add("landmark no junction", |t| {
        t.regions[0].landmarks[0].junction = 65_535
    });
    add("least above greatest", |t| {
        t.regions[0].landmarks[1].stored = Stored::Span {
            least: 6,
            greatest: 5,
        }
    });
    add("value and shape", |t| {
        t.regions[0].children = 2;
        t.regions[3].landmarks[0].junction = 0;
    });
}

/// Tree books with a list's value out of range or order.
fn list_values(damages: &mut Damages) {
    let mut add = |cause: &str, list: [(u32, u16); 2]| {
        let stored = Stored::list(&list);
        let book = changed_tree(damages.version, |t| {
            t.regions[1].landmarks[1].stored = stored
        });
        damages.add(5, cause, book);
    };
    add("distance too great", [(12, 2), (MOST_DISTANCE + 1, 1)]);
    add("distance the greatest u32", [(12, 2), (u32::MAX, 1)]);
    add("distances fall", [(23, 1), (12, 2)]);
    add("pair twice", [(12, 2), (12, 2)]);
    add("yards fall at equal distances", [(12, 2), (12, 1)]);
}

/// "A kind byte of 0 in a tree is refused by 5": of each region, and of each entry of each list; and a pair twice that
/// its kinds would put in order.
fn kind_values(damages: &mut Damages) {
    let version = damages.version;
    let sound = tree_value(version);
    for region in 0..sound.regions.len() {
        let cause = format!("kinds 0 of region {region}");
        let book = changed_tree(version, |t| t.regions[region].kinds = 0);
        damages.add(5, &cause, book);
    }
    for (region, landmark, place) in entries(&sound) {
        let cause = format!("kinds 0 of region {region}, list {landmark}, place {place}");
        let kinds_0 = |list: &mut Vec<Entry>| list[place].kinds = 0;
        let book = with_list(version, region, landmark, kinds_0);
        damages.add(5, &cause, book);
    }
    let twice = with_list(version, 1, 1, |list| {
        list[1] = list[0];
        (list[0].kinds, list[1].kinds) = (1, 2);
    });
    damages.add(5, "pair twice, kinds rise", twice);
    kinds_and_more(damages);
}

/// A kind byte of 0 with another fault: the earlier test refuses.
fn kinds_and_more(damages: &mut Damages) {
    let version = damages.version;
    let last = |t: &mut Tree| t.regions[3].kinds = 0;
    let cut_too = cut(&changed_tree(version, last), 1);
    damages.add(4, "kinds 0 of the last region, which is cut", cut_too);
    let shape_too = changed_tree(version, |t| {
        last(t);
        t.yards = 6;
    });
    damages.add(5, "kinds 0 and shape", shape_too);
    let junctions_too = changed_tree(version, |t| {
        last(t);
        t.junctions = 17;
    });
    damages.add(5, "kinds 0 and more junctions", junctions_too);
}

/// The places of all entries: region, landmark, place in the list.
pub fn entries(tree: &Tree) -> Vec<(usize, usize, usize)> {
    let mut places = Vec::new();
    for (region, record) in tree.regions.iter().enumerate() {
        for (landmark, stored) in record.landmarks.iter().enumerate() {
            let list = 0..stored.list().len();
            places.extend(list.map(|place| (region, landmark, place)));
        }
    }
    places
}

/// The sound tree of a version with a change in one list.
pub fn with_list(
    version: u8,
    region: usize,
    landmark: usize,
    change: impl FnOnce(&mut Vec<Entry>),
) -> Vec<u8> {
    changed_tree(version, |t: &mut tree::Tree| {
        if let Stored::List(list) = &mut t.regions[region].landmarks[landmark].stored {
            change(list);
        }
    })
}
