//! The listing of a file (document 01, "The program reads the file"; document
//! 02, a, its column after terminated).

use crate::reading::book::{Book, SECTIONS};
use crate::reading::calls::{ExpiryLists, REGISTER};
use crate::reading::file::whole::{ReadLists, read};
use std::fmt::Write;

/// Lists of full length, owned, to lend to a read.
#[derive(Clone, Debug, PartialEq, Eq)]
pub struct Lists {
    pub buyers: Vec<u8>,
    pub elevators: Vec<u8>,
    pub sellers: Vec<u8>,
    pub lots: Vec<u32>,
    pub delivered: Vec<u32>,
    pub terminated: Vec<u32>,
    pub lapsed: Vec<u32>,
    pub margin_sums: Vec<i64>,
}

impl Lists {
    /// As long as any file can need.
    pub fn full() -> Lists {
        Lists {
            buyers: vec![0; REGISTER],
            elevators: vec![0; REGISTER],
            sellers: vec![0; REGISTER],
            lots: vec![0; REGISTER],
            delivered: vec![0; SECTIONS],
            terminated: vec![0; SECTIONS],
            lapsed: vec![0; SECTIONS],
            margin_sums: vec![0; SECTIONS],
        }
    }

    /// Lends all lists to a read.
    pub fn lend(&mut self) -> ReadLists<'_> {
        ReadLists {
            expiry: ExpiryLists {
                buyers: &mut self.buyers,
                elevators: &mut self.elevators,
                sellers: &mut self.sellers,
                lots: &mut self.lots,
                delivered: &mut self.delivered,
                terminated: &mut self.terminated,
                lapsed: &mut self.lapsed,
            },
            margin_sums: &mut self.margin_sums,
        }
    }
}

/// What the program prints for a file. "A refused file prints `refused`,
/// number, place. Fields are parted by one space; rows end in byte 10."
pub fn listing(file: &[u8]) -> String {
    let mut lists = Lists::full();
    let reading = read(file, lists.lend());
    match reading.answer {
        Ok(counts) => of_book(&reading.book, counts.kept, &lists),
        Err(refusal) => format!("refused {} {}\n", refusal.number(), reading.place),
    }
}

/// The listing of a book and its lists: the register, and "a row per section by
/// number: code, delivered, terminated", then lapsed, "sum of its margins."
pub fn of_book(book: &Book, kept: usize, lists: &Lists) -> String {
    let mut text = register(book, kept, lists);
    for (lots, margins) in section_lots(book, lists).zip(&lists.margin_sums) {
        writeln!(text, "{lots} {margins}").expect("a string takes all");
    }
    text
}

/// The code of each section held, its delivered, terminated and lapsed lots.
pub(super) fn section_lots(book: &Book, lists: &Lists) -> impl Iterator<Item = String> {
    let sections = book.sections().iter().enumerate();
    sections.map(|(i, section)| {
        let (code, delivered, terminated) = (section.code, lists.delivered[i], lists.terminated[i]);
        let lapsed = lists.lapsed[i];
        format!("{code} {delivered} {terminated} {lapsed}")
    })
}

/// "prints `register` and the line count; a row per line: buyer's code,
/// elevator, seller's code, lots, tonnes". The lines are those kept, "which are
/// now the register and stand in the listing's first row" (document 02, a).
pub(super) fn register(book: &Book, kept: usize, lists: &Lists) -> String {
    let sections = book.sections();
    let mut text = format!("register {kept}\n");
    for i in 0..kept {
        let buyer = sections[usize::from(lists.buyers[i])].code;
        let seller = sections[usize::from(lists.sellers[i])].code;
        let (elevator, lots) = (lists.elevators[i], lists.lots[i]);
        let tonnes = u64::from(lots) * u64::from(book.lot);
        writeln!(text, "{buyer} {elevator} {seller} {lots} {tonnes}").expect("a string takes all");
    }
    text
}
