//! Faults put into a draft, most of them events that are refused.

use super::markets::new_code;
use super::{Draft, Raw};
use crate::reading::book::Book;
use crate::reading::file::OPERAND;
use crate::reading::file::event::{self, Event};
use crate::trial::random::Random;
use std::collections::BTreeSet;

/// The numbers that a fault put into a market aims at.
pub(super) struct Aims {
    numbers: &'static [u8],
    /// The fault stands at the end, where the market is full.
    late: bool,
}

pub(super) const ANY: Aims = Aims {
    numbers: &[5, 6, 7, 8, 10, 11, 12, 13, 14, 16, 18, 19, 20, 22],
    late: false,
};
pub(super) const AT_MANY_SECTIONS: Aims = Aims {
    numbers: &[9, 9, 5, 6, 7, 8],
    late: true,
};
pub(super) const AT_MANY_NOTICES: Aims = Aims {
    numbers: &[21, 21, 5, 10, 18, 19, 20],
    late: true,
};
pub(super) const AT_HEAVY_POSITIONS: Aims = Aims {
    numbers: &[14, 14, 5, 10, 11, 12, 13],
    late: true,
};

/// Puts an event that is refused into the draft, often for two reasons, and
/// sometimes ends the draft there.
pub(super) fn insert_fault(random: &mut Random, draft: &mut Draft, aims: &Aims) {
    let aim = random.pick(aims.numbers);
    let place = match aim {
        5 => draft.events.len(),
        _ => fault_place(random, draft, aims),
    };
    let event = faulty(random, &draft.book_at(place), aim, wild_event);
    draft.events.insert(place, event::encode(&event));
    if random.percent(20) {
        draft.events.truncate(place + 1);
    }
}

/// A place for a fault: after the end, before the expiry or anywhere.
fn fault_place(random: &mut Random, draft: &Draft, aims: &Aims) -> usize {
    let end = draft.events.len();
    match random.below(100) {
        0..5 => end,
        5..85 if aims.late => end.max(1) - 1,
        _ => random.below(end + 1),
    }
}

/// An event refused with the number aimed at, for that alone or for more; or
/// one refused otherwise, where that is not found.
pub(super) fn faulty(
    random: &mut Random,
    book: &Book,
    aim: u8,
    wild: fn(&mut Random, &Book) -> Event,
) -> Event {
    let alone = random.percent(40);
    let mut other = None;
    for _ in 0..150 {
        let event = wild(random, book);
        let faults = event.faults(book);
        let first = faults.first().map(|refusal| refusal.number());
        if first == Some(aim) && (faults.len() == 1) == alone {
            return event;
        }
        if first.is_some() && (other.is_none() || first == Some(aim)) {
            other = Some(event);
        }
    }
    other.unwrap_or_else(|| wild(random, book))
}

/// An event of any kind whose fields are in and out of their limits.
pub(super) fn wild_event(random: &mut Random, book: &Book) -> Event {
    match random.below(16) {
        0..4 => wild_section(random, book),
        4..8 => wild_trade(random, book),
        8..12 => wild_notice(random, book),
        12 | 13 => Event::Session {
            price: wild_price(random, 1),
        },
        14 => Event::Condition {
            section: wild_number(random, book),
            met: random.percent(50),
        },
        _ => Event::Expiry,
    }
}

fn wild_section(random: &mut Random, book: &Book) -> Event {
    let mut code = new_code(random, 0, &BTreeSet::new());
    match random.below(3) {
        0 if book.sections_held > 0 => code = random.pick(book.sections()).code,
        1 => code.0[random.below(7)] = random.pick(b"/:@[`a z\0\x7f\xff"),
        _ => {}
    }
    let within = random.from_to(0, 63) as u8;
    Event::Section {
        settlement_code: random.pick(&[within, within, 63, 64, 255]),
        seller: random.percent(50),
        code,
        participant: random.bits() as u32,
    }
}

pub(super) fn wild_trade(random: &mut Random, book: &Book) -> Event {
    let mut buyer = wild_number(random, book);
    let mut seller = wild_number(random, book);
    let by_position = |&i: &usize| book.sections[i].position;
    if random.percent(50) {
        buyer = (0..book.sections_held).max_by_key(by_position).unwrap_or(0) as u8;
    }
    if random.percent(50) {
        seller = (0..book.sections_held).min_by_key(by_position).unwrap_or(0) as u8;
    }
    match random.below(10) {
        0 | 1 => seller = buyer,
        2 | 3 => (buyer, seller) = (seller, buyer),
        _ => {}
    }
    let within = random.from_to(1, 10_000);
    let fits = lots_that_fit(book, buyer, seller);
    let lots = match random.below(3) {
        0 => random.pick(&[fits, fits + 1]),
        1 => within,
        _ => random.pick(&[1, 10_000, 0, 10_001, 2_000_001, u32::MAX]),
    };
    Event::Trade {
        buyer,
        seller,
        price: wild_price(random, book.r.max(1)),
        lots,
    }
}

/// The most lots of a trade that both positions can take.
pub(super) fn lots_that_fit(book: &Book, buyer: u8, seller: u8) -> u32 {
    let position = |number: u8| book.section_held(number).map_or(0, |s| s.position);
    let room = (1_000_000 - position(buyer)).min(1_000_000 + position(seller));
    room.clamp(0, 10_000) as u32
}

pub(super) fn wild_notice(random: &mut Random, book: &Book) -> Event {
    let held = match book.notices() {
        [] => None,
        notices if random.percent(40) => Some(random.pick(notices)),
        _ => None,
    };
    let within = random.from_to(0, 31) as u8;
    let elevator = random.pick(&[within, within, 31, 32, 255]);
    let lots = random.from_to(1, 20);
    Event::Notice {
        section: held.map_or_else(|| wild_number(random, book), |n| n.section),
        elevator: held.map_or(elevator, |n| n.elevator),
        lots: random.pick(&[lots, lots, 1_000_000, 0, 1_000_001, u32::MAX]),
    }
}

/// A section number, held two times of three if any is.
fn wild_number(random: &mut Random, book: &Book) -> u8 {
    let held = book.sections_held;
    match random.below(3) {
        0 => random.pick(&[held as u8, held as u8, 127, 128, 255]),
        _ => random.below(held.max(1)) as u8,
    }
}

/// A price, on a multiple of R within its limits one time of two.
fn wild_price(random: &mut Random, r: u32) -> u32 {
    let within = random.from_to(1, 10_000_000 / r) * r;
    let above = (10_000_000 / r + 1) * r;
    match random.below(2) {
        0 => within,
        _ => random.pick(&[0, 10_000_001, above, u32::MAX, within - 1, within + 1]),
    }
}

/// Puts an event of bad form into the draft, often one refused anyway.
pub(super) fn insert_malformed(random: &mut Random, draft: &mut Draft, aims: &Aims) {
    let place = fault_place(random, draft, aims);
    let book = draft.book_at(place);
    let aim = random.pick(aims.numbers);
    let event = match random.percent(60) {
        true => faulty(random, &book, aim, wild_event),
        false => wild_event(random, &book),
    };
    draft.events.insert(place, malformed(random, &event));
}

/// An event of bad form: an unknown kind, a mark above 1 or an unlisted byte.
pub(super) fn malformed(random: &mut Random, event: &Event) -> Raw {
    let (mut kind, mut operand) = event::encode(event);
    let layout = event::layout(kind).expect("a known kind");
    let listed = |what: u8| (0..OPERAND).filter(move |&i| layout[i] == what);
    let marks: Vec<usize> = listed(b'm').collect();
    let unlisted: Vec<usize> = listed(b'.').collect();
    match random.below(3) {
        0 => kind = random.pick(&[0, 7, 8, 128, 255]),
        1 if !marks.is_empty() => operand[random.pick(&marks)] = random.pick(&[2, 2, 3, 255]),
        _ => operand[random.pick(&unlisted)] = random.pick(&[1, 2, 128, 255]),
    }
    (kind, operand)
}

/// Gives the opening a lot, W or R that it refuses, or a K.
pub(super) fn break_opening(random: &mut Random, draft: &mut Draft) {
    let contract = &mut draft.contract;
    let out = [0, 1_000_001, u32::MAX];
    if random.percent(40) {
        contract.lot = random.pick(&[0, 1_001, u32::MAX]);
    }
    match random.below(4) {
        0 => contract.w = random.pick(&out),
        1 => contract.r = random.pick(&out),
        2 => {
            (contract.w, contract.r) = random.pick(&[
                (1, 200_001),
                (101, 1),
                (1, 1_000_000),
                (1_000_000, 1),
                (999_901, 9_999),
            ])
        }
        _ => contract.lot = random.pick(&[0, 1_001, u32::MAX]),
    }
    if random.percent(25) {
        draft.events.clear();
    }
}

/// Ends the draft before its expiry, or empties it.
pub(super) fn drop_expiry(random: &mut Random, draft: &mut Draft) {
    let most = draft.events.len();
    let keep = random.below(most);
    draft
        .events
        .truncate(random.pick(&[0, keep, keep, most - 1]));
}

/// Makes the last session an evening one, or none, or one before a trade.
pub(super) fn spoil_end(random: &mut Random, draft: &mut Draft) {
    let last = draft.events.len() - 1;
    let is_session = |(kind, _): &Raw| *kind == 3;
    let session = draft.events.iter().rposition(is_session);
    let session = session.expect("a session before the expiry");
    match random.below(3) {
        0 => {
            let other = draft.events[session];
            draft.events.insert(last, other);
        }
        1 => {
            draft.events.remove(session);
        }
        _ => {
            let is_trade = |(kind, _): &&Raw| *kind == 2;
            let trade = draft.events.iter().find(is_trade).copied();
            trade
                .into_iter()
                .for_each(|trade| draft.events.insert(last, trade));
        }
    }
}

/// Events with no plan at all, on top of a few that are held.
pub(super) fn soup(random: &mut Random, draft: &mut Draft) {
    draft.events.truncate(4);
    for _ in 0..random.below(20) {
        let event = wild_event(random, &draft.book_at(draft.events.len()));
        draft.events.push(event::encode(&event));
    }
}
