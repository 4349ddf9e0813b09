//! Demand 3 over a list of calls (00-demands, 3; document 01, "Over a list of
//! calls"; document 02, a, for lines that are removed).
//!
//! A history keeps what was called and what was answered. The claims are
//! worked out from the accepted calls of the history alone; no book is asked.

pub mod block;
mod claims;
mod lent;

use crate::reading::book::{Book, SECTIONS};
use crate::reading::calls::{Counts, REGISTER, open};
use crate::reading::file::event::Event;
use crate::reading::refusal::Refusal;
use block::Block;
use lent::make_checked;

/// The lengths of the lists lent to a call.
#[derive(Clone, Copy, Debug, PartialEq, Eq)]
pub struct Lengths {
    pub margins: usize,
    /// Buyer's number, elevator, seller's number, lots.
    pub register: [usize; 4],
    pub delivered: usize,
    pub terminated: usize,
    pub lapsed: usize,
}

impl Lengths {
    /// Of lists that are never short.
    pub const FULL: Lengths = Lengths {
        margins: SECTIONS,
        register: [REGISTER; 4],
        delivered: SECTIONS,
        terminated: SECTIONS,
        lapsed: SECTIONS,
    };
}

/// A call with its values, and how long the lists lent with it are.
#[derive(Clone, Copy, Debug, PartialEq, Eq)]
pub struct Single {
    pub event: Event,
    pub lengths: Lengths,
}

/// A call of a list. A block "may stand anywhere in a list of calls" (document
/// 02, b).
#[derive(Clone, Debug, PartialEq, Eq)]
pub enum Call {
    Single(Single),
    Block(Block),
}

/// A line as the four register lists have it.
#[derive(Clone, Copy, Debug, PartialEq, Eq)]
pub struct Entry {
    pub buyer: u8,
    pub elevator: u8,
    pub seller: u8,
    pub lots: u32,
}

/// What an accepted call handed out: "Entries are taken as they stand when
/// their own call returns".
#[derive(Clone, Debug, PartialEq, Eq)]
pub enum Outcome {
    Done,
    Session { margins: Vec<i64> },
    Expiry(Expiry),
}

/// What an accepted expiry handed out.
#[derive(Clone, Debug, PartialEq, Eq)]
pub struct Expiry {
    pub counts: Counts,
    /// "all lines formed, which the answer counts". The lists do not show those
    /// removed.
    pub formed: Vec<Entry>,
    /// "The register is the lines written, from the start of the four lists":
    /// the lines kept.
    pub register: Vec<Entry>,
    pub delivered: Vec<u32>,
    pub terminated: Vec<u32>,
    pub lapsed: Vec<u32>,
}

/// A call made and its answer.
#[derive(Clone, Debug, PartialEq, Eq)]
pub struct Step {
    pub event: Event,
    pub answer: Result<Outcome, Refusal>,
}

/// "The list starts from the book of an accepted opening and may be empty or
/// stop anywhere."
#[derive(Clone, Debug, PartialEq, Eq)]
pub struct History {
    pub lot: u32,
    pub w: u32,
    pub r: u32,
    pub steps: Vec<Step>,
}

/// Where a list of calls ends: its history, and the book handed out last.
#[derive(Clone, Debug, PartialEq, Eq)]
pub struct Ending {
    pub history: History,
    pub book: Book,
}

/// "Each call, after a refused one too, is given the book handed out just
/// before, and nobody else alters it between." None where the opening is
/// refused.
pub fn run(lot: u32, w: u32, r: u32, calls: &[Call]) -> Result<Option<Ending>, String> {
    let (opened, mut book) = open(lot, w, r);
    if opened.is_err() {
        return Ok(None);
    }
    let mut steps = Vec::new();
    let mut held = 0;
    for call in calls {
        match call {
            Call::Single(single) => {
                let step = make_checked(&mut book, single, held)?;
                let opens = matches!(step.event, Event::Section { .. });
                held += usize::from(opens && step.answer.is_ok());
                steps.push(step);
            }
            Call::Block(block) => steps.extend(block.make_checked(&mut book)?),
        }
    }
    let history = History { lot, w, r, steps };
    Ok(Some(Ending { history, book }))
}
