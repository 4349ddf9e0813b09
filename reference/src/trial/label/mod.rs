//! The files that are given to the programs `label` and `listing`: misshapen ones,
//! the examples, the cases of "Checked by hand", files of a size, files at an edge,
//! and those of seeds.

mod edges;
pub mod reach;

use super::calls::shapes;
use super::generate::{sized, trading};
use super::hand::unstarred;
use super::input::Input;
use crate::reading::book::SECTIONS;
use edges::edges;

/// The events that 128 sections need.
const EVENTS: usize = 634;

/// Short ones first, those of the seeds last.
pub fn inputs(seeds: &[u64]) -> impl Iterator<Item = Input> {
    [sizes_alone()]
        .into_iter()
        .chain(shapes())
        .chain(claims())
        .chain((16..=SECTIONS).step_by(16).map(of_size))
        .chain(edges())
        .chain(seeds.iter().map(|&seed| Input::of_seed(seed)))
}

/// 16 bytes that say no event.
fn sizes_alone() -> Input {
    Input::new("sizes alone", trading(0, 0).expect("no event"))
}

fn claims() -> impl Iterator<Item = Input> {
    let cases = unstarred().into_iter();
    cases.map(|case| Input::new(case.claim, case.file()))
}

/// With 128 sections the register has 375 lines.
fn of_size(sections: usize) -> Input {
    let bytes = sized(sections, EVENTS).expect("room for all");
    Input::new(format!("{sections} sections"), bytes)
}
