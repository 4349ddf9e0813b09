//! Lists of calls made from a file, its trades one by one or some in blocks.

use super::Contract;
use crate::reading::calls::REGISTER;
use crate::reading::file::event::Event;
use crate::reading::file::{self, Reader};
use crate::trial::demand::block::Block;
use crate::trial::demand::{Call, Lengths, Single};
use crate::trial::random::Random;

/// The events of a file as a list of calls, some with lists that may be short
/// and called again. None where the file's size is wrong.
pub fn calls(seed: u64, file: &[u8]) -> Option<(Contract, Vec<Single>)> {
    let n = file::events_in(file).ok()?;
    let (lot, w, r) = file::contract_in(file);
    let mut random = Random::new(!seed);
    let mut calls = Vec::new();
    let mut sections = 0;
    for next in 0..n {
        let Ok(event) = (Reader { file, next }).read().event else {
            continue;
        };
        sections += usize::from(matches!(event, Event::Section { .. }));
        let lengths = lengths(&mut random, sections);
        calls.push(Single { event, lengths });
        let again = match event {
            Event::Session { .. } => lengths.margins < sections,
            Event::Expiry => lengths != Lengths::FULL,
            _ => false,
        };
        if again {
            calls.push(Single {
                event,
                lengths: Lengths::FULL,
            });
        }
    }
    Some((Contract { lot, w, r }, calls))
}

/// The calls as they are, each on its own.
pub fn singly(calls: &[Single]) -> Vec<Call> {
    calls.iter().copied().map(Call::Single).collect()
}

/// The same calls, most trades that follow one another in blocks. Between them
/// stand empty blocks, and refused ones, which bring nothing.
pub fn with_blocks(seed: u64, calls: &[Single]) -> Vec<Call> {
    let mut random = Random::new(seed.rotate_left(32));
    let mut given = Vec::new();
    let is_trade = |call: &Single| matches!(call.event, Event::Trade { .. });
    for some in calls.chunk_by(|a, b| is_trade(a) && is_trade(b)) {
        if random.percent(5) {
            given.push(Call::Block(Block::default()));
        }
        match is_trade(&some[0]) && random.percent(80) {
            true => in_blocks(&mut random, some, &mut given),
            false => given.extend(singly(some)),
        }
    }
    given
}

/// Trades in one block or several, a refused block before some of them.
fn in_blocks(random: &mut Random, trades: &[Single], given: &mut Vec<Call>) {
    let events: Vec<Event> = trades.iter().map(|call| call.event).collect();
    let mut left = &events[..];
    while !left.is_empty() {
        let part = 1 + random.below(left.len());
        let (some, rest) = left.split_at(random.pick(&[left.len(), left.len(), part]));
        let block = Block::of(some);
        if random.percent(30) {
            given.push(Call::Block(uneven(random, block.clone())));
        }
        given.push(Call::Block(block));
        left = rest;
    }
}

/// The block with one list shorter by one, or longer.
fn uneven(random: &mut Random, mut block: Block) -> Block {
    let length = block.answers;
    let other = random.pick(&[length - 1, length + 1, length + 400, 0]);
    match random.below(5) {
        0 => block.buyers.resize(other, 0),
        1 => block.sellers.resize(other, 1),
        2 => block.prices.resize(other, 100),
        3 => block.lots.resize(other, 1),
        _ => block.answers = other,
    }
    block
}

/// Full lengths, or lengths of which one or more may be short by a little.
fn lengths(random: &mut Random, sections: usize) -> Lengths {
    match random.below(10) {
        0 => near_all(random, sections),
        1 => one_short(random, sections),
        _ => Lengths::FULL,
    }
}

/// One list by section is short by one, and no other.
fn one_short(random: &mut Random, sections: usize) -> Lengths {
    let mut lengths = Lengths::FULL;
    let list = match random.below(4) {
        0 => &mut lengths.margins,
        1 => &mut lengths.delivered,
        2 => &mut lengths.terminated,
        _ => &mut lengths.lapsed,
    };
    *list = sections.saturating_sub(1);
    lengths
}

/// Each list is short by a little, fits or has a little more.
fn near_all(random: &mut Random, sections: usize) -> Lengths {
    let mut near = |limit: usize| (limit + random.below(4)).saturating_sub(1 + random.below(2));
    Lengths {
        margins: near(sections),
        register: [
            near(REGISTER),
            near(REGISTER),
            near(REGISTER),
            near(REGISTER),
        ],
        delivered: near(sections),
        terminated: near(sections),
        lapsed: near(sections),
    }
}
