//! The byte count of the listing, "wanted before printing" (document 02, m).
//! Nothing is printed here: digits, signs, spaces and line ends are counted.

use crate::reading::book::{Book, ELEVATORS};
use crate::reading::calls::REGISTER;
use crate::reading::file::whole::{Reading, read};
use crate::reading::listing::Lists;
use crate::reading::refusal::{Refusal, first};
use std::ops::RangeInclusive;

/// "a section code of 7 bytes"
const CODE: usize = 7;
/// "lots outside 1 to 1,000,000"
const LINE_LOTS: RangeInclusive<u32> = 1..=1_000_000;

/// What the count is worked out from, beside the book: "the register, the section
/// lists and the margin sums". The register has a row for each entry of its lists.
#[derive(Clone, Copy, Debug)]
pub struct LabelLists<'a> {
    pub buyers: &'a [u8],
    pub elevators: &'a [u8],
    pub sellers: &'a [u8],
    pub lots: &'a [u32],
    pub delivered: &'a [u32],
    pub terminated: &'a [u32],
    pub lapsed: &'a [u32],
    pub margin_sums: &'a [i64],
}

/// The answer. "An accepted call returns 0 as its number"; a refused one has "any
/// count in its answer being 0".
#[derive(Clone, Copy, Debug, PartialEq, Eq)]
pub struct Label {
    pub number: u8,
    pub count: usize,
}

impl<'a> LabelLists<'a> {
    /// Those of a read, of whose register lists the lines kept are the register
    /// (document 02, a).
    pub fn of(lists: &'a Lists, kept: usize) -> LabelLists<'a> {
        LabelLists {
            buyers: &lists.buyers[..kept],
            elevators: &lists.elevators[..kept],
            sellers: &lists.sellers[..kept],
            lots: &lists.lots[..kept],
            delivered: &lists.delivered,
            terminated: &lists.terminated,
            lapsed: &lists.lapsed,
            margin_sums: &lists.margin_sums,
        }
    }

    /// "the register's lists differ in length or pass 382"
    fn lengths_are_bad(&self) -> bool {
        let rows = self.buyers.len();
        let others = [self.elevators.len(), self.sellers.len(), self.lots.len()];
        others != [rows; 3] || rows > REGISTER
    }

    /// "a row names a section not held, an elevator above 31 or lots outside 1 to
    /// 1,000,000"
    fn any_row_is_bad(&self, book: &Book) -> bool {
        let mut sections = self.buyers.iter().chain(self.sellers);
        let mut elevators = self.elevators.iter();
        sections.any(|&section| book.section_held(section).is_none())
            || elevators.any(|&elevator| usize::from(elevator) >= ELEVATORS)
            || !self.lots.iter().all(|lots| LINE_LOTS.contains(lots))
    }

    /// "a section list, the margin sums too, is shorter than the sections held"
    fn any_is_short(&self, book: &Book) -> bool {
        let lots = [self.delivered, self.terminated, self.lapsed];
        let held = book.sections_held;
        lots.iter().any(|list| list.len() < held) || self.margin_sums.len() < held
    }
}

impl Book {
    /// Label: "Turned away, after 1: 39".
    pub fn label_faults(&self, lists: &LabelLists<'_>) -> Vec<Refusal> {
        self.faults(|| {
            let bad = lists.lengths_are_bad() || lists.any_row_is_bad(self);
            [(bad || lists.any_is_short(self), Refusal::LabelLists)]
        })
    }

    /// **Label**: "work out that count, signs and line ends included". The book need
    /// not have expired.
    pub fn label(&self, lists: LabelLists<'_>) -> Label {
        match first(self.label_faults(&lists)) {
            Ok(()) => Label {
                number: 0,
                count: self.listing_bytes(&lists),
            },
            Err(refusal) => Label {
                number: refusal.number(),
                count: 0,
            },
        }
    }

    /// The bytes of all rows: "`register` and the line count; a row per line [...]; a
    /// row per section by number".
    fn listing_bytes(&self, lists: &LabelLists<'_>) -> usize {
        let head = row(["register".len(), digits(lists.lots.len() as u64)]);
        let lines = lists.elevators.iter().zip(lists.lots);
        let lines = lines.map(|(&elevator, &lots)| self.line_bytes(elevator, lots));
        let sections = (0..self.sections_held).map(|section| section_bytes(lists, section));
        head + lines.sum::<usize>() + sections.sum::<usize>()
    }

    /// "buyer's code, elevator, seller's code, lots, tonnes"
    fn line_bytes(&self, elevator: u8, lots: u32) -> usize {
        let tonnes = u64::from(lots) * u64::from(self.lot);
        let [elevator, lots] = [u32::from(elevator), lots].map(|n| digits(n.into()));
        row([CODE, elevator, CODE, lots, digits(tonnes)])
    }
}

/// "code, delivered, terminated", lapsed (document 02, a), "sum of its margins"
fn section_bytes(lists: &LabelLists<'_>, section: usize) -> usize {
    let lots = [lists.delivered, lists.terminated, lists.lapsed];
    let [delivered, terminated, lapsed] = lots.map(|list| digits(list[section].into()));
    let sum = lists.margin_sums[section];
    let sum = usize::from(sum < 0) + digits(sum.unsigned_abs());
    row([CODE, delivered, terminated, lapsed, sum])
}

/// "A refused file prints `refused`, number, place."
pub fn refused_bytes(number: u8, place: usize) -> usize {
    row(["refused".len(), digits(number.into()), digits(place as u64)])
}

/// The bytes of a row whose fields have so many. "Fields are parted by one space;
/// rows end in byte 10": one byte stands after each field.
fn row<const N: usize>(fields: [usize; N]) -> usize {
    fields.iter().sum::<usize>() + N
}

/// The digits of a number in base ten; nought has one.
fn digits(number: u64) -> usize {
    number.checked_ilog10().map_or(1, |log| log as usize + 1)
}

/// The byte count of what the program prints for a file.
pub fn of_file(file: &[u8]) -> usize {
    let mut lists = Lists::full();
    let reading = read(file, lists.lend());
    of_reading(&reading, &lists)
}

/// The same from a read and the lists that it was lent. Those of an accepted read
/// are never turned away.
pub fn of_reading(reading: &Reading, lists: &Lists) -> usize {
    match reading.answer {
        Ok(counts) => reading.book.label(LabelLists::of(lists, counts.kept)).count,
        Err(refusal) => refused_bytes(refusal.number(), reading.place),
    }
}
