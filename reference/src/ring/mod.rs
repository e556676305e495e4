//! Rings of stations whose grand master falls silent: how long they still announce its clock, and how far its frames go.
//!
//! Each station is a replay program of its own, which hears what its neighbours' programs sent. Times are true times in
//! U = 2^-40 s unless they are called local; the same seed gives the same course, whatever the machine does meanwhile.

mod cabling;
mod clock;
mod course;
pub mod picture;
pub mod program;
mod row;
mod station;
pub mod table;

#[cfg(test)]
mod tests;
