//! A tree book's bytes.

use super::{Region, Stored, Tree};
use crate::book::{close, put_u16, put_u32};
use crate::kinds;

/// Writes a tree book of any values; version 1 has no kinds.
pub fn write(tree: &Tree) -> Vec<u8> {
    let mut fields = Vec::new();
    put_u16(&mut fields, tree.junctions);
    put_u16(&mut fields, tree.regions.len() as u16);
    put_u16(&mut fields, tree.yards);
    fields.push(tree.m);
    for region in &tree.regions {
        put_region(tree.version, &mut fields, region);
    }
    close(tree.version, &fields)
}

/// Writes a region's record.
fn put_region(version: u8, fields: &mut Vec<u8>, region: &Region) {
    put_u16(fields, region.first);
    put_u16(fields, region.after);
    fields.push(region.children);
    put_u16(fields, region.yards);
    kinds::put(version, fields, region.kinds);
    for landmark in &region.landmarks {
        put_u16(fields, landmark.junction);
        put_stored(version, fields, &landmark.stored);
    }
}

/// Writes what is stored for a landmark.
fn put_stored(version: u8, fields: &mut Vec<u8>, stored: &Stored) {
    match stored {
        Stored::List(list) => {
            for entry in list {
                put_u32(fields, entry.distance);
                put_u16(fields, entry.yard);
                kinds::put(version, fields, entry.kinds);
            }
        }
        Stored::Span { least, greatest } => {
            put_u32(fields, *least);
            put_u32(fields, *greatest);
        }
    }
}
