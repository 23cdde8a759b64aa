//! A person's own district: from a text file to the proved calls' answer.

pub mod command;
pub mod fault;
pub mod output;

mod answer;
mod bookfiles;
mod books;
mod calls;
mod district;
mod draw;
mod junctions;
mod kinds;
mod lines;
mod list;
mod marks;
mod names;
mod number;
mod parse;
mod refusal;
mod table;
mod text;
mod trace;
mod warnings;
mod ways;
mod why;

#[cfg(test)]
mod parse_tests;
#[cfg(test)]
mod refusal_tests;
