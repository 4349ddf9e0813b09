//! One call with lists lent, and what it may write.

use super::{Entry, Expiry, Lengths, Outcome, Single, Step};
use crate::reading::book::Book;
use crate::reading::calls::{Counts, ExpiryLists};
use crate::reading::file::event::Event;
use crate::reading::refusal::Refusal;

/// The lists lent to one call, filled so that each untouched entry shows.
#[derive(Clone, Debug, PartialEq, Eq)]
struct Lent {
    margins: Vec<i64>,
    buyers: Vec<u8>,
    elevators: Vec<u8>,
    sellers: Vec<u8>,
    lots: Vec<u32>,
    delivered: Vec<u32>,
    terminated: Vec<u32>,
    lapsed: Vec<u32>,
}

impl Lent {
    /// Lists of these lengths, holding values no call writes.
    fn new(lengths: &Lengths) -> Lent {
        let [buyers, elevators, sellers, lots] = lengths.register;
        let numbers = |length: usize| (0..length).map(|i| u32::MAX - i as u32).collect();
        Lent {
            margins: (0..lengths.margins).map(|i| i64::MIN + i as i64).collect(),
            buyers: vec![0xB1; buyers],
            elevators: vec![0xE1; elevators],
            sellers: vec![0xC1; sellers],
            lots: numbers(lots),
            delivered: numbers(lengths.delivered),
            terminated: numbers(lengths.terminated),
            lapsed: numbers(lengths.lapsed),
        }
    }

    /// Makes one call on the book with these lists.
    fn make(&mut self, book: &mut Book, event: &Event) -> Result<Counts, Refusal> {
        let lists = ExpiryLists {
            buyers: &mut self.buyers,
            elevators: &mut self.elevators,
            sellers: &mut self.sellers,
            lots: &mut self.lots,
            delivered: &mut self.delivered,
            terminated: &mut self.terminated,
            lapsed: &mut self.lapsed,
        };
        event.call(book, &mut self.margins, lists)
    }

    /// The entries from the start of the four register lists.
    fn register(&self, lines: usize) -> Vec<Entry> {
        let entry = |i: usize| Entry {
            buyer: self.buyers[i],
            elevator: self.elevators[i],
            seller: self.sellers[i],
            lots: self.lots[i],
        };
        (0..lines).map(entry).collect()
    }

    /// Whether this agrees with what was lent, but for the entries used.
    fn remains(&self, lent: &Lent, margins: usize, lines: usize, sections: usize) -> bool {
        self.margins[margins..] == lent.margins[margins..]
            && self.buyers[lines..] == lent.buyers[lines..]
            && self.elevators[lines..] == lent.elevators[lines..]
            && self.sellers[lines..] == lent.sellers[lines..]
            && self.lots[lines..] == lent.lots[lines..]
            && self.delivered[sections..] == lent.delivered[sections..]
            && self.terminated[sections..] == lent.terminated[sections..]
            && self.lapsed[sections..] == lent.lapsed[sections..]
    }
}

/// The lines formed, "as before" (document 02, a): the register of the same book
/// where no two sections are one person's, and so no line is removed.
fn formed(book: &Book) -> Vec<Entry> {
    let mut apart = book.clone();
    let sections = apart.sections[..book.sections_held].iter_mut();
    (0..)
        .zip(sections)
        .for_each(|(number, section)| section.participant = number);
    let mut lists = Lent::new(&Lengths::FULL);
    let counts = lists.make(&mut apart, &Event::Expiry);
    lists.register(counts.expect("an expiry that is accepted").kept)
}

/// Makes one call and checks demand 1's last sentence: refused, "the book and
/// every lent entry remain as they were"; accepted, no entry but those used.
pub(super) fn make_checked(book: &mut Book, call: &Single, held: usize) -> Result<Step, String> {
    let lent = Lent::new(&call.lengths);
    let mut lists = lent.clone();
    let before = book.clone();
    let answer = lists.make(book, &call.event);
    let (margins, lines, sections) = match (&answer, call.event) {
        (Ok(_), Event::Session { .. }) => (held, 0, 0),
        (Ok(counts), Event::Expiry) => (0, counts.kept, held),
        _ => (0, 0, 0),
    };
    if !lists.remains(&lent, margins, lines, sections) {
        return Err(format!(
            "{call:?} answered {answer:?} and wrote an entry it does not use"
        ));
    }
    if answer.is_err() && *book != before {
        return Err(format!("{call:?} was refused and changed the book"));
    }
    let outcome = |counts: Counts| match call.event {
        Event::Session { .. } => Outcome::Session {
            margins: lists.margins[..held].to_vec(),
        },
        Event::Expiry => Outcome::Expiry(Expiry {
            counts,
            formed: formed(&before),
            register: lists.register(counts.kept),
            delivered: lists.delivered[..held].to_vec(),
            terminated: lists.terminated[..held].to_vec(),
            lapsed: lists.lapsed[..held].to_vec(),
        }),
        _ => Outcome::Done,
    };
    Ok(Step {
        event: call.event,
        answer: answer.map(outcome),
    })
}
