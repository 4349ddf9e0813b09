//! The events in their order, each with what it does to the book (01, "The book").

use super::contract::{division, rounded};
use super::{Page, Refused, expiry, refused};
use crate::reading::book::{Book, SECTIONS, Section, SessionKind};
use crate::reading::expiry::Settlement;
use crate::reading::file::event::Event;
use crate::reading::file::whole::Replay;
use crate::reading::file::{Reader, SIZES};
use crate::reading::refusal::Refusal;

/// What a section bought and sold over all trades.
#[derive(Clone, Copy, Debug, Default)]
pub(super) struct Traded {
    pub(super) bought: i64,
    pub(super) sold: i64,
    /// "lots times entry value, bought plus, sold minus" (00, 3), in kopecks
    pub(super) entered: i64,
}

/// The events so far: the book after them, and what demand 3 adds up.
pub(super) struct History {
    k: u64,
    replay: Replay,
    pub(super) traded: [Traded; SECTIONS],
    pub(super) sessions: usize,
    /// The sessions whose margins sum to 0.
    pub(super) even_sessions: usize,
}

impl History {
    fn new(book: Book) -> History {
        let (.., k) = rounded(100_000 * u64::from(book.w), book.r.into());
        History {
            k,
            replay: Replay::new(book),
            traded: [Traded::default(); SECTIONS],
            sessions: 0,
            even_sessions: 0,
        }
    }

    pub(super) fn book(&self) -> &Book {
        &self.replay.book
    }

    /// The expiry of an accepted file.
    pub(super) fn settlement(&self) -> &Settlement {
        self.replay.settlement.as_ref().expect("an accepted expiry")
    }

    /// A section's margins, summed over all sessions.
    pub(super) fn margins(&self, section: usize) -> i64 {
        self.replay.margin_sums[section]
    }

    fn section(&self, number: u8) -> &Section {
        &self.book().sections[usize::from(number)]
    }
}

/// All events up to the first that is refused; 27 where none is and there is no
/// expiry among them.
pub(super) fn told(page: &mut Page, file: &[u8], n: usize, book: Book) -> Result<History, Refused> {
    page.rows(
        "
THE EVENTS, NUMBERED FROM 0 (01, The book)
A basis is lots times V, bought plus, sold minus, since the last session, on top of position*V then.
A margin is position*V - basis, which is what 001, 2.1.3 comes to, VM2 = VM - VM1 included.
Every condition starts as not met.",
    );
    let mut history = History::new(book);
    let mut reader = Reader::new(file);
    for place in 0..n {
        let read = reader.read();
        let event = read.event.map_err(|refusal| {
            let kind = file[SIZES + place];
            refused::unread(page, place, kind, read.operand);
            (refusal, place)
        })?;
        let before = history.book().clone();
        let taken = history.replay.take(&event, usize::MAX, usize::MAX);
        taken.map_err(|refusal| {
            refused::event(page, place, &event, &before, refusal);
            (refusal, place)
        })?;
        accepted(page, place, &event, &before, &mut history);
    }
    if history.replay.settlement.is_none() {
        page.row(format!(
            "after {n} events: refusal 27, the last event is not an accepted expiry"
        ));
        return Err((Refusal::NoExpiryLast, n));
    }
    Ok(history)
}

/// An accepted event, given the book before it and the history with it.
fn accepted(page: &mut Page, place: usize, event: &Event, before: &Book, history: &mut History) {
    match *event {
        Event::Section { .. } => section(page, place, history),
        Event::Trade {
            buyer,
            seller,
            price,
            lots,
        } => trade(page, place, [buyer, seller], [price, lots], history),
        Event::Session { price } => session(page, place, price, before, history),
        Event::Condition { section, met } => {
            let code = history.section(section).code;
            let meets = if met { "meets" } else { "does not meet" };
            page.row(format!("{place} condition: {code} {meets} its condition"));
        }
        Event::Notice {
            section,
            elevator,
            lots,
        } => {
            let (code, number) = (history.section(section).code, before.notices_held);
            page.row(format!(
                "{place} notice: {code} files {lots} lots at elevator {elevator}, \
                 notice {number} in filing order"
            ));
        }
        Event::Expiry => {
            page.row(format!("{place} expiry"));
            expiry(page, before, history.settlement());
        }
    }
}

fn section(page: &mut Page, place: usize, history: &History) {
    let number = history.book().sections_held - 1;
    let section = &history.book().sections[number];
    let (code, settlement_code) = (section.code, section.settlement_code);
    page.say(format!(
        "{place} section: {code} has number {number}, settlement code {settlement_code}, \
         participant {}",
        section.participant
    ));
    page.row(mark(section));
}

/// The seller mark, at the end of a row.
pub(super) fn mark(section: &Section) -> &'static str {
    match section.seller {
        true => ", seller mark",
        false => ", no seller mark",
    }
}

/// The value of the price, and what it makes of both sides.
fn trade(
    page: &mut Page,
    place: usize,
    sides: [u8; 2],
    [price, lots]: [u32; 2],
    history: &mut History,
) {
    let [buyer, seller] = sides.map(|side| history.section(side).code);
    page.row(format!(
        "{place} trade: {buyer} buys {lots} lots from {seller} at price P {price}; V = P*K/100000"
    ));
    let value = division(page, price.into(), history.k, 100_000);
    let worth = u64::from(lots) * value;
    for (side, done) in sides.into_iter().zip(["bought", "sold"]) {
        let section = history.section(side);
        let (code, position, basis) = (section.code, section.position, section.basis);
        page.row(format!(
            "    {code}: {lots}*{value} = {worth} {done}, position {position}, basis {basis}"
        ));
    }
    let [buyer, seller] = sides.map(usize::from);
    let (lots, worth) = (i64::from(lots), worth as i64);
    history.traded[buyer].bought += lots;
    history.traded[buyer].entered += worth;
    history.traded[seller].sold += lots;
    history.traded[seller].entered -= worth;
}

/// The value of the price, and each section's margin: "position·V(price) less
/// basis, signed".
fn session(page: &mut Page, place: usize, price: u32, before: &Book, history: &mut History) {
    let kind = match history.book().last_session {
        SessionKind::Evening => "evening",
        _ => "day",
    };
    page.row(format!(
        "{place} session: {kind}, price P {price}; V = P*K/100000"
    ));
    let value = division(page, price.into(), history.k, 100_000) as i64;
    page.row(
        "    section, position, basis, margin = position*V - basis, session sum so far, \
         section sum so far",
    );
    let mut sum = 0;
    for (i, section) in before.sections().iter().enumerate() {
        let (code, position, basis) = (section.code, section.position, section.basis);
        let margin = position * value - basis;
        sum += margin;
        let all = history.margins(i);
        page.row(format!(
            "    {code} {position} {basis} {margin} {sum} {all}"
        ));
    }
    page.row(format!(
        "    the margins of this session sum to {sum}; each basis becomes position*{value}"
    ));
    history.sessions += 1;
    history.even_sessions += usize::from(sum == 0);
}
