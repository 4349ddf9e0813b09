//! An accepted file as the turns and the limits see it.

use crate::reading::book::{Book, SectionCode};
use crate::reading::expiry::Settlement;
use crate::reading::file::Reader;
use crate::reading::file::event::Event;
use crate::reading::file::whole::Accepted;
use crate::trial::removal::Removal;

/// An accepted file and what it came to.
pub struct View {
    pub events: Vec<Event>,
    pub book: Book,
    pub settlement: Settlement,
    pub removal: Removal,
    pub margin_sums: Vec<i64>,
}

impl View {
    /// The view of a file and what it came to.
    pub(super) fn new(file: &[u8], accepted: Accepted) -> View {
        let mut reader = Reader::new(file);
        let read = |_| reader.read().event.expect("an event of an accepted file");
        View {
            events: (0..accepted.events).map(read).collect(),
            removal: Removal::new(&accepted.book, &accepted.settlement),
            book: accepted.book,
            settlement: accepted.settlement,
            margin_sums: accepted.margin_sums,
        }
    }

    pub(super) fn sections(&self) -> std::ops::Range<usize> {
        0..self.book.sections_held
    }

    pub(super) fn code(&self, section: usize) -> usize {
        usize::from(self.book.sections[section].settlement_code)
    }

    /// The book with the order of its section codes turned round.
    pub(super) fn mirror(&self) -> Book {
        mirrored(&self.book, |_| true)
    }
}

/// The book with the section codes of sections of such a position turned round:
/// what came first by bytes comes last.
pub(super) fn mirrored(book: &Book, of: impl Fn(i64) -> bool) -> Book {
    let mut mirror = book.clone();
    for section in &mut mirror.sections[..book.sections_held] {
        if of(section.position) {
            section.code = SectionCode(section.code.0.map(|byte| u8::MAX - byte));
        }
    }
    mirror
}
