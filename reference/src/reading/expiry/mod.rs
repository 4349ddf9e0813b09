//! Expiry in its order (document 01, "Expiry in its order"; 000, 2.1 to 2.6),
//! and the lines taken out after it (document 02, a).
//!
//! The steps work on signed lots, one number for each section held: above 0
//! long, below 0 short. Nothing here changes the book.

pub mod failing;
pub mod outside;
pub mod passes;
pub mod same_person;

use crate::reading::book::{Book, SETTLEMENT_CODES, SectionCode};
use failing::{failed_nets, fails, give_across_codes, give_within_codes, sound_lots};
use outside::{draw_notices, mark_outside};
use passes::form_passes;
use same_person::{lots_in, parted};

/// Lots of a buyer section and an elevator that stage one put together.
#[derive(Clone, Copy, Debug, PartialEq, Eq)]
pub struct Pair {
    pub buyer: usize,
    pub elevator: u8,
    pub lots: i64,
}

/// A line formed: one buyer, one elevator, one seller.
#[derive(Clone, Copy, Debug, PartialEq, Eq)]
pub struct Line {
    pub buyer: usize,
    pub elevator: u8,
    pub seller: usize,
    pub lots: i64,
}

/// The lots of a long section in one pass.
#[derive(Clone, Copy, Debug, PartialEq, Eq)]
pub struct Buyer {
    pub section: usize,
    pub lots: i64,
}

/// The lots of a notice drawn for one pass.
#[derive(Clone, Copy, Debug, PartialEq, Eq)]
pub struct Offer {
    pub seller: usize,
    pub elevator: u8,
    pub lots: i64,
}

/// What a notice gives to the inside pass of its code and to the outside pass.
#[derive(Clone, Copy, Debug, Default, PartialEq, Eq)]
pub struct Drawn {
    pub inside: i64,
    pub outside: i64,
}

/// One pass of step 6.
#[derive(Clone, Debug, PartialEq, Eq)]
pub struct Pass {
    /// The settlement code of an inside pass, none for the outside pass.
    pub code: Option<u8>,
    pub buyers: Vec<Buyer>,
    pub offers: Vec<Offer>,
    pub pairs: Vec<Pair>,
    pub lines: Vec<Line>,
}

/// What expiry decides, step by step.
#[derive(Clone, Debug, PartialEq, Eq)]
pub struct Settlement {
    /// Step 1: the sections that fail.
    pub failing: Vec<bool>,
    /// Step 2: D(c) of every code, and what is left of it.
    pub failed: [i64; SETTLEMENT_CODES],
    pub unclosed: [i64; SETTLEMENT_CODES],
    /// The sound lots left after step 2, and after step 3.
    pub left_within: Vec<i64>,
    pub left: Vec<i64>,
    /// Step 4: the part of `left` that is outside; the rest is inside.
    pub outside: Vec<i64>,
    /// Step 5: what each notice gives, in filing order.
    pub drawn: Vec<Drawn>,
    /// Step 6: the passes that have lots, in their order.
    pub passes: Vec<Pass>,
    /// The register: the lines kept, in the order formed.
    pub register: Vec<Line>,
    /// "Its lots are all terminated, as are lots given in 2 and 3; the rest
    /// are delivered", but for those of removed lines, which lapse.
    pub delivered: Vec<u32>,
    pub terminated: Vec<u32>,
    pub lapsed: Vec<u32>,
}

impl Settlement {
    /// "the pairs formed [...] over all passes"
    pub fn pairs(&self) -> usize {
        self.passes.iter().map(|pass| pass.pairs.len()).sum()
    }

    /// The lines formed in all passes, in that order; some may be removed.
    pub fn lines(&self) -> impl Iterator<Item = &Line> {
        self.passes.iter().flat_map(|pass| &pass.lines)
    }
}

/// The six steps over the sections and notices held by a good book, and what
/// is removed after them.
pub fn settle(book: &Book) -> Settlement {
    let failing: Vec<bool> = (0..book.sections_held).map(|i| fails(book, i)).collect();
    let mut left = sound_lots(book, &failing);
    let failed = failed_nets(book, &failing);
    let unclosed = give_within_codes(book, &failed, &mut left);
    let left_within = left.clone();
    give_across_codes(book, unclosed.iter().sum(), &mut left);
    let outside = mark_outside(book, &left);
    let drawn = draw_notices(book, &left, &outside);
    let passes = form_passes(book, &left, &outside, &drawn);
    let (removed, register) = parted(book, &passes);
    let lapsed = lots_in(&removed, book.sections_held);
    let sections = book.sections().iter().zip(&left);
    let terminated = sections.map(|(section, &left)| size(section.position) - size(left));
    let rest = left.iter().zip(&lapsed);
    let delivered = rest.map(|(&left, lapsed)| size(left) - lapsed);
    Settlement {
        delivered: delivered.collect(),
        terminated: terminated.collect(),
        lapsed,
        register,
        failing,
        failed,
        unclosed,
        left_within,
        left,
        outside,
        drawn,
        passes,
    }
}

/// The size of signed lots.
fn size(lots: i64) -> u32 {
    u32::try_from(lots.unsigned_abs()).expect("lots within the position limit")
}

/// The section code, by which equal sizes are ordered everywhere.
fn code(book: &Book, section: usize) -> SectionCode {
    book.sections[section].code
}

/// The settlement code of a section.
fn settlement_code(book: &Book, section: usize) -> usize {
    usize::from(book.sections[section].settlement_code)
}

/// The sum of what is left in each code.
pub fn nets(book: &Book, left: &[i64]) -> [i64; SETTLEMENT_CODES] {
    let mut nets = [0; SETTLEMENT_CODES];
    for (i, lots) in left.iter().enumerate() {
        nets[settlement_code(book, i)] += lots;
    }
    nets
}

/// The sections with lots left on the side of `sign`.
fn on_side(left: &[i64], sign: i64) -> Vec<usize> {
    (0..left.len())
        .filter(|&i| left[i] != 0 && left[i].signum() == sign)
        .collect()
}
