//! A seeded generator of event files: the same seed gives the same bytes.
//!
//! Small books reach the refusals, alone and two at once. Medium books are
//! mostly accepted, with many lines, ties and splits. Books at the limits fill
//! what can be filled. Damaged files are flipped, cut, lengthened or given a
//! wrong n. Unruly files, apart from these, go on after a refusal, and those of the
//! risk desk are looked at before their expiry.

mod contracts;
mod damaged;
mod desk;
mod faults;
mod limits;
pub mod lists;
mod markets;
mod medium;
mod participants;
mod sized;
mod small;
pub mod unruly;

use crate::reading::book::Book;
use crate::reading::calls::open;
use crate::reading::file::OPERAND;
use crate::reading::file::event::{self, Event};
use crate::reading::file::whole::Replay;
use crate::trial::random::Random;
use damaged::damaged;
pub use desk::desk;
use limits::limits;
use medium::medium;
pub use sized::{sized, trading};
use small::small;

/// The four kinds of file.
#[derive(Clone, Copy, Debug, PartialEq, Eq)]
pub enum Kind {
    Small,
    Medium,
    Limits,
    Damaged,
}

/// Sixteen seeds in a row have every kind.
const ROUND: [Kind; 16] = {
    use Kind::{Damaged as D, Limits as L, Medium as M, Small as S};
    [S, M, D, S, M, D, S, M, D, S, M, D, S, M, S, L]
};

/// The kind of file a seed gives.
pub fn kind(seed: u64) -> Kind {
    ROUND[(seed % 16) as usize]
}

/// The file a seed gives.
pub fn file(seed: u64) -> Vec<u8> {
    let mut random = Random::new(seed);
    match kind(seed) {
        Kind::Small => small(&mut random).bytes(),
        Kind::Medium => medium(&mut random).bytes(),
        Kind::Limits => limits(&mut random, seed / 16).bytes(),
        Kind::Damaged => damaged(&mut random),
    }
}

/// The lot, W and R of a contract.
#[derive(Clone, Copy, Debug, PartialEq, Eq)]
pub struct Contract {
    pub lot: u32,
    pub w: u32,
    pub r: u32,
}

/// A kind byte and an operand, well formed or not.
type Raw = (u8, [u8; OPERAND]);

/// A file before it is bytes.
#[derive(Clone, Debug)]
struct Draft {
    contract: Contract,
    events: Vec<Raw>,
}

impl Draft {
    fn new(contract: Contract, events: &[Event]) -> Draft {
        Draft {
            contract,
            events: events.iter().map(event::encode).collect(),
        }
    }

    /// The bytes, with any number of events.
    fn bytes(&self) -> Vec<u8> {
        let Contract { lot, w, r } = self.contract;
        let sizes = [self.events.len() as u32, lot, w, r];
        let mut bytes: Vec<u8> = sizes.into_iter().flat_map(u32::to_le_bytes).collect();
        bytes.extend(self.events.iter().map(|(kind, _)| kind));
        bytes.extend(self.events.iter().flat_map(|(_, operand)| operand));
        bytes
    }

    /// The book after the first events, refused ones passed over.
    fn book_at(&self, place: usize) -> Book {
        let Contract { lot, w, r } = self.contract;
        let mut replay = Replay::new(open(lot, w, r).1);
        for (kind, operand) in &self.events[..place] {
            if let Ok(event) = event::decode(*kind, operand) {
                let _ = replay.take(&event, usize::MAX, usize::MAX);
            }
        }
        replay.book
    }
}
