//! The command `dispatch`: a person's own district.

mod command;

mod books;
mod brute_force;
mod drawing;
mod explaining;
mod faults;
mod kinds;
mod names;
mod page;
