//! The query book.

use std::iter::Sum;

use crate::book::{close, open, put_u16, put_u32, u16_at, u32_at};
use crate::refusal::{refuse_unless, CREWS, HEADER, PARAMETER, RECORD};

/// A query book has version 1 only.
const VERSION: u8 = 1;

/// "The aggregate is the sum (code 0) or the maximum (code 1) over the crews."
#[derive(Clone, Copy, Debug, PartialEq, Eq)]
pub enum Aggregate {
    Sum,
    Maximum,
}

impl Aggregate {
    /// "the sum or the maximum over the crews", in as many bits as the values have.
    pub fn over<N: Ord + Default + Sum>(self, values: impl Iterator<Item = N>) -> N {
        match self {
            Aggregate::Sum => values.sum(),
            Aggregate::Maximum => values.max().unwrap_or_default(),
        }
    }
}

/// "Query book: aggregate u8, k u8 (1 to 64), step limit u32, crews u8 (1 to 16), then crew junctions u16."
#[derive(Clone, Debug, PartialEq, Eq)]
pub struct Query {
    pub aggregate: Aggregate,
    pub k: usize,
    pub limit: u32,
    pub crews: Vec<u16>,
}

/// The query book's own tests, in order: "Query values fall to 10 and 11, never to 3 or 5."
pub fn read(book: &[u8], road_junctions: u16) -> Result<Query, u32> {
    let (_, fields) = open(book, VERSION)?;
    refuse_unless(fields.len() >= 7, HEADER)?;
    let crews = records(&fields[7..], usize::from(fields[6]))?;
    crews_of_road_book(&crews, road_junctions)?;
    Ok(Query {
        aggregate: aggregate(fields[0])?,
        k: k(fields[1])?,
        limit: u32_at(fields, 2),
        crews,
    })
}

/// Test 4: "A record is incomplete, or bytes follow the last one."
fn records(bytes: &[u8], count: usize) -> Result<Vec<u16>, u32> {
    refuse_unless(bytes.len() == 2 * count, RECORD)?;
    Ok(bytes.chunks(2).map(|bytes| u16_at(bytes, 0)).collect())
}

/// Test 10: "Crews are none, more than 16, or at no junction of the road book."
fn crews_of_road_book(crews: &[u16], road_junctions: u16) -> Result<(), u32> {
    refuse_unless((1..=16).contains(&crews.len()), CREWS)?;
    refuse_unless(crews.iter().all(|&crew| crew < road_junctions), CREWS)
}

/// Test 11: "the aggregate code is outside its range".
fn aggregate(code: u8) -> Result<Aggregate, u32> {
    match code {
        0 => Ok(Aggregate::Sum),
        1 => Ok(Aggregate::Maximum),
        _ => Err(PARAMETER),
    }
}

/// Test 11: "k u8 (1 to 64)".
fn k(k: u8) -> Result<usize, u32> {
    refuse_unless((1..=64).contains(&k), PARAMETER)?;
    Ok(usize::from(k))
}

/// Writes a query book of any values.
pub fn write(aggregate: u8, k: u8, limit: u32, crews: &[u16]) -> Vec<u8> {
    let mut fields = vec![aggregate, k];
    put_u32(&mut fields, limit);
    fields.push(crews.len() as u8);
    crews.iter().for_each(|&crew| put_u16(&mut fields, crew));
    close(VERSION, &fields)
}
