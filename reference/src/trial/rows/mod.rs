//! A seeded generator of rows for the program `lastday`: the same seed gives the
//! same row. It has no end byte.
//!
//! Runs are accepted rows, most with many closed dates near the 10th. Edges are
//! accepted rows that end at a chosen day. Faults are refused rows. Forms are
//! rows of a bad form and rows of a form that is just good.

mod always;
mod draft;
mod edges;
mod faults;
mod forms;
pub mod inputs;
pub mod reach;
mod runs;

use crate::trial::random::Random;

/// Eight seeds in a row give five runs and one of each other sort.
pub fn row(seed: u64) -> Vec<u8> {
    let random = &mut Random::new(seed);
    let turn = (seed / 8) as usize;
    match seed % 8 {
        0 => edges::edge(random, turn).bytes(),
        3 => faults::fault(random, turn).bytes(),
        6 => forms::form(random, turn),
        _ => runs::run(random).bytes(),
    }
}
