//! The explanation of a file: every number of it, and of its margins and its
//! expiry, with what it comes from, in rows for whoever opens the archive box
//! (00, "the explanation that goes into the archive box").
//!
//! What is decided is decided elsewhere in this reading. Here each decision is
//! walked once more, to say what stood before it and after it.

mod contract;
mod demand;
mod events;
mod failing;
mod outside;
mod page;
mod passes;
mod refused;

use crate::reading::book::{Book, Section};
use crate::reading::expiry::Settlement;
use crate::reading::listing::listing;
use crate::reading::refusal::Refusal;
use events::History;
use page::Page;

pub use contract::rounded;
pub use page::COLUMNS;

/// A refusal and its place.
type Refused = (Refusal, usize);

const HEAD: &str = "\
EXPLANATION OF ONE WHEAT CONTRACT, FROM ITS EVENT FILE
Papers: 00 the demands, 01 the scope, 02 the change requests, 000 the method, 001 the specification.
Of 02, requests a and c bear on a contract. Amounts are kopecks, prices kopecks for a tonne.
A position is lots bought less sold; 'code' alone is a settlement code.
";

/// The whole explanation of a file, accepted or refused.
pub fn explain(file: &[u8]) -> Vec<u8> {
    let mut page = Page::default();
    page.rows(HEAD);
    match read(&mut page, file) {
        Ok(history) => {
            page.rows(
                "
THE REGISTER AND THE SECTIONS, AS THE LISTING HAS THEM (01, Event file; 02, a)
Lines kept: buyer, elevator, seller, lots, tonnes.
Sections: section code, delivered, terminated, lapsed, sum of its margins.",
            );
            page.rows(&listing(file));
            demand::told(&mut page, &history);
        }
        Err((refusal, place)) => {
            page.rows(
                "
THE FILE IS REFUSED: NUMBER AND PLACE (01, Event file)
A refused file writes nothing: no margin above stands, and no register is made.",
            );
            page.row(format!("refused {} {place}", refusal.number()));
        }
    }
    page.bytes()
}

/// The read of the file in its order: sizes, opening, events, and the expiry,
/// which is the last of an accepted file.
fn read(page: &mut Page, file: &[u8]) -> Result<History, Refused> {
    let n = contract::events(page, file)?;
    let book = contract::opened(page, file)?;
    events::told(page, file, n, book)
}

/// The six steps of an accepted expiry.
fn expiry(page: &mut Page, book: &Book, settlement: &Settlement) {
    page.rows("\nTHE EXPIRY, STEP BY STEP");
    failing::step_one(page, book);
    failing::step_two(page, book, settlement);
    failing::step_three(page, book, settlement);
    outside::step_four(page, book, settlement);
    outside::step_five(page, book, settlement);
    passes::step_six(page, book, settlement);
}

/// The numbers of the sections held that are such.
fn numbers(book: &Book, such: impl Fn(usize, &Section) -> bool) -> Vec<usize> {
    let sections = book.sections().iter().enumerate();
    let chosen = sections.filter(|(i, section)| such(*i, section));
    chosen.map(|(i, _)| i).collect()
}

/// The row of a tie: where a section has as many lots as the one before it in
/// their order, its section code put it behind.
fn tie(page: &mut Page, book: &Book, lots: &[i64], before: Option<usize>, section: usize) {
    let size = lots[section].abs();
    if before.is_some_and(|before| lots[before].abs() == size) {
        let code = book.sections[section].code;
        page.row(format!(
            "    tie: {code} has {size} lots too; the lower section code came first"
        ));
    }
}
