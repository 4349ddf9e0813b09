//! Lists at an edge: no event, an opening refused, no section or 128, events of
//! which hardly one reads or none is accepted, and as many rows as may be.

use super::super::faults::break_opening;
use super::super::small::small;
use super::super::{Contract, Draft};
use super::growing::Growing;
use crate::reading::book::SECTIONS;
use crate::reading::calls::opening_faults;
use crate::reading::file::event::Event;
use crate::trial::hand::{session, trade};
use crate::trial::random::Random;

/// Eight turns have every edge.
pub(super) fn edge(random: &mut Random, turn: usize) -> Draft {
    match turn % 8 {
        0 => Growing::new(random).draft(),
        number @ 1..=3 => opening(random, 1 + number as u8),
        4 => many_sections(random),
        5 => no_section(random),
        6 => none_accepted(random),
        _ => hardly_readable(random),
    }
}

/// An opening refused with a number, 2 to 4.
fn opening(random: &mut Random, number: u8) -> Draft {
    loop {
        let mut draft = small(random);
        break_opening(random, &mut draft);
        let Contract { lot, w, r } = draft.contract;
        let faults = opening_faults(lot, w, r);
        if faults.first().is_some_and(|first| first.number() == number) {
            return draft;
        }
    }
}

fn many_sections(random: &mut Random) -> Draft {
    let mut list = Growing::new(random);
    list.sections(SECTIONS..=SECTIONS);
    for _ in 0..list.some(1..=5) {
        list.trades(0..=60, 10);
        list.session();
    }
    list.sections(1..=1);
    list.finish();
    list.draft()
}

/// Runs of trades that no section can make, sessions, and an expiry.
fn no_section(random: &mut Random) -> Draft {
    let mut list = Growing::new(random);
    for _ in 0..list.some(0..=3) {
        list.trades(0..=4, 50);
        list.session();
    }
    list.finish();
    list.trades(0..=2, 50);
    list.draft()
}

/// Trades that no section can make, and events that do not read.
fn none_accepted(random: &mut Random) -> Draft {
    let mut list = Growing::new(random);
    for _ in 0..list.some(1..=9) {
        list.trades(1..=3, 50);
        list.unreadable();
    }
    list.draft()
}

/// Kinds and operands of random bytes, most of them small.
fn hardly_readable(random: &mut Random) -> Draft {
    let mut list = Growing::new(random);
    list.unreadable();
    list.sections(2..=2);
    for _ in 0..list.some(1..=60) {
        let kind = list.random.below(8) as u8;
        let noughts = list.random.below(16);
        let mut operand = [0; 16];
        operand[noughts..].fill_with(|| list.random.below(3) as u8);
        list.add_raw((kind, operand));
        list.trades(0..=1, 30);
    }
    list.draft()
}

/// 128 sections with lots and as many sessions as there is room for, of prices as
/// far apart as they may be: about as many bytes as a file can have printed.
pub fn widest() -> Vec<u8> {
    let random = &mut Random::new(0);
    let contract = Contract {
        lot: 1,
        w: 100,
        r: 1,
    };
    let mut list = Growing::in_contract(random, contract);
    list.sections(SECTIONS..=SECTIONS);
    for buyer in (0..SECTIONS as u8).step_by(2) {
        list.add(trade(buyer, buyer + 1, 10_000_000, 10_000));
    }
    while list.room() > 1 {
        let high = list.room().is_multiple_of(2);
        list.add(session(if high { 10_000_000 } else { 1 }));
    }
    list.add(Event::Expiry);
    list.draft().bytes()
}
