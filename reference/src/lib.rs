//! The timing bridge once more, by other means: wide integers, options, lists and state changed in place.

#![forbid(unsafe_code)]

pub mod answer;
pub mod bridge;
pub mod byvalue;
pub mod frame;
pub mod hex;
pub mod input;
pub mod listing;
pub mod lives;
pub mod order;
pub mod port;
pub mod program;
pub mod ptp;
pub mod replay;
pub mod ring;
pub mod rules;
pub mod samples;
pub mod stamps;
pub mod times;

#[cfg(test)]
mod tests;
