//! A plain meeting-yard finder, written from the paper alone, to hold the proved one against.
//!
//! The modules follow the paper's layers; each function carries the sentence that it implements.
#![forbid(unsafe_code)]

pub mod book;
pub mod kinds;
pub mod refusal;
pub mod road;
pub mod yard;

pub mod tree;

pub mod build;
pub mod check;

pub mod query;
pub mod search;

pub mod capacity;
pub mod eccentricity;
pub mod list;
pub mod outline;

pub mod brute;
pub mod generate;

pub use build::{build, Built};
pub use check::check;
pub use search::{ask, ask_by, search, within, Asked, Found, Measuring};
