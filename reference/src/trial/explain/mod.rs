//! The files that are given to the program `explain`: misshapen ones, the examples,
//! one for every way in which a read is refused, books with every turn of an expiry,
//! files at the limits, and those of seeds; the `checks` of what is printed for
//! them; and what they `reach`.

mod books;
pub mod checks;
mod kinds;
pub mod reach;
mod refusals;

use super::calls::shapes;
use super::generate::{sized, trading};
use super::hand::{unstarred, worked};
use super::input::Input;
use crate::reading::book::SECTIONS;

/// Short ones first, those of the seeds last.
pub fn inputs(seeds: &[u64]) -> impl Iterator<Item = Input> {
    [sizes_alone()]
        .into_iter()
        .chain(shapes())
        .chain(longer_than_any())
        .chain(claims())
        .chain(refusals::inputs())
        .chain(books::inputs())
        .chain([most_lines()])
        .chain(seeds.iter().map(|&seed| Input::of_seed(seed)))
}

/// 16 bytes that say no event.
fn sizes_alone() -> Input {
    Input::new("sizes alone", trading(0, 0).expect("no event"))
}

/// Fifteen events in as many bytes as 3,800 have, and in a byte more.
fn longer_than_any() -> [Input; 2] {
    [64_616, 64_617].map(|length| {
        let mut bytes = worked().file();
        bytes.resize(length, 0);
        Input::new(format!("15 events in {length} bytes"), bytes)
    })
}

fn claims() -> impl Iterator<Item = Input> {
    let cases = unstarred().into_iter();
    cases.map(|case| Input::new(case.claim, case.file()))
}

/// 128 sections, 256 notices and 375 lines in the fewest events.
fn most_lines() -> Input {
    let bytes = sized(SECTIONS, 634).expect("room for all");
    Input::new("375 lines", bytes)
}
