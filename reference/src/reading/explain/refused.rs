//! The event that is refused, and why (01, "The book" and "Event file").

use super::Page;
use crate::reading::book::{Book, PRICE, SectionCode, SessionKind};
use crate::reading::file::event::{Event, layout};
use crate::reading::refusal::Refusal;

/// An event that does not read: "26 (unknown kind, nonzero unlisted byte, mark
/// above 1)", with every byte that is wrong.
pub(super) fn unread(page: &mut Page, place: usize, kind: u8, operand: &[u8]) {
    page.row(format!("{place} event of kind {kind}"));
    let Some(layout) = layout(kind) else {
        page.row(format!("    refusal 26: kind {kind} is none of 1 to 6"));
        return;
    };
    for (at, (what, byte)) in layout.iter().zip(operand).enumerate() {
        match (what, byte) {
            (b'm', 2..) => page.row(format!(
                "    refusal 26: the mark at byte {at} of its operand is {byte}, above 1"
            )),
            (b'.', 1..) => page.row(format!(
                "    refusal 26: byte {at} of its operand is {byte} and should be zero"
            )),
            _ => {}
        }
    }
}

/// The sections that an event names, where they are held.
fn sections(page: &mut Page, book: &Book, event: &Event) {
    let named = match *event {
        Event::Trade { buyer, seller, .. } => vec![buyer, seller],
        Event::Condition { section, .. } | Event::Notice { section, .. } => vec![section],
        _ => vec![],
    };
    for number in named {
        if let Some(section) = book.sections().get(usize::from(number)) {
            page.row(format!("    section {number} is {}", section.code));
        }
    }
}

/// An event that reads, and is refused by its call on this book.
pub(super) fn event(page: &mut Page, place: usize, event: &Event, book: &Book, refusal: Refusal) {
    fields(page, place, event);
    sections(page, book, event);
    let number = refusal.number();
    let why = match *event {
        _ if refusal == Refusal::Expired => {
            vec![format!("the book has expired, by the event before {place}")]
        }
        Event::Section {
            settlement_code,
            code,
            ..
        } => vec![of_section(book, settlement_code, code, refusal)],
        Event::Trade {
            buyer,
            seller,
            price,
            lots,
        } => of_trade(book, [buyer, seller], price, lots, refusal),
        Event::Session { price } => vec![price_outside(price)],
        Event::Condition { section, .. } => vec![not_held(book, section)],
        Event::Notice {
            section,
            elevator,
            lots,
        } => vec![of_notice(book, section, elevator, lots, refusal)],
        Event::Expiry => vec![of_expiry(book)],
    };
    for why in why {
        page.row(format!("    refusal {number}: {why}"));
    }
    if let (Event::Trade { .. }, Refusal::PositionLimit) = (event, refusal) {
        positions(page, book, event);
    }
}

/// The event's values, as they stand in the file.
fn fields(page: &mut Page, place: usize, event: &Event) {
    match *event {
        Event::Section {
            settlement_code,
            code,
            participant,
            ..
        } => page.row(format!(
            "{place} section: section code {}, settlement code {settlement_code}, \
             participant {participant}",
            shown(code)
        )),
        Event::Trade {
            buyer,
            seller,
            price,
            lots,
        } => page.row(format!(
            "{place} trade: buyer {buyer}, seller {seller}, price {price}, {lots} lots"
        )),
        Event::Session { price } => page.row(format!("{place} session: price {price}")),
        Event::Condition { section, met } => {
            page.say(format!("{place} condition: section {section}"));
            page.row(if met { ", met" } else { ", not met" });
        }
        Event::Notice {
            section,
            elevator,
            lots,
        } => page.row(format!(
            "{place} notice: section {section}, elevator {elevator}, {lots} lots"
        )),
        Event::Expiry => page.row(format!("{place} expiry")),
    }
}

/// Any seven bytes: one that is no sign of ASCII, or is the backslash, stands as
/// `\x` and two digits in base 16.
fn shown(code: SectionCode) -> String {
    let one = |byte: u8| match byte {
        b'\\' => "\\x5c".to_string(),
        33..=126 => char::from(byte).to_string(),
        _ => format!("\\x{byte:02x}"),
    };
    code.0.into_iter().map(one).collect()
}

/// Section: 6 to 9.
fn of_section(book: &Book, settlement_code: u8, code: SectionCode, refusal: Refusal) -> String {
    let is_bad = |byte: &u8| !matches!(byte, b'0'..=b'9' | b'A'..=b'Z');
    let bad = code.0.iter().position(is_bad);
    let holder = book.sections().iter().position(|s| s.code == code);
    match (refusal, bad, holder) {
        (Refusal::SettlementCode, ..) => format!("settlement code {settlement_code} is above 63"),
        (Refusal::CodeByte, Some(at), _) => format!(
            "byte {at} of the section code is {}, neither 0-9 (48-57) nor A-Z (65-90)",
            code.0[at]
        ),
        (Refusal::CodeHeld, _, Some(holder)) => {
            format!("the section code {code} is held already, by section {holder}")
        }
        _ => format!(
            "{} sections are held, and there is place for 128",
            book.sections_held
        ),
    }
}

/// Trade: 10 to 15.
fn of_trade(book: &Book, sides: [u8; 2], price: u32, lots: u32, refusal: Refusal) -> Vec<String> {
    let one = match refusal {
        Refusal::UnknownSection => {
            let unknown = sides.into_iter();
            let unknown = unknown.filter(|&side| book.section_held(side).is_none());
            return unknown.map(|side| not_held(book, side)).collect();
        }
        Refusal::BuyerIsSeller => format!("section {} is buyer and seller", sides[0]),
        Refusal::TradePrice if !PRICE.contains(&price) => price_outside(price),
        Refusal::TradePrice => format!("price {price} is no multiple of R {}", book.r),
        Refusal::TradeLots => format!("{lots} lots are outside 1 to 10000"),
        Refusal::PositionLimit => "a position would pass its limit".to_string(),
        _ => format!(
            "{} trades since the last session, and 2000 is the most",
            book.trades_since
        ),
    };
    vec![one]
}

/// What a trade that 14 refuses would make of both positions.
fn positions(page: &mut Page, book: &Book, event: &Event) {
    let Event::Trade {
        buyer,
        seller,
        lots,
        ..
    } = *event
    else {
        return;
    };
    let lots = i64::from(lots);
    for (side, lots) in [(buyer, lots), (seller, -lots)] {
        let section = &book.sections[usize::from(side)];
        let (code, position) = (section.code, section.position);
        let moved = position + lots;
        page.row(format!(
            "    the position of {code} is {position} and would be {moved}; \
             the limit is 1000000 on either side"
        ));
    }
}

/// Notice: 10, and 18 to 21.
fn of_notice(book: &Book, section: u8, elevator: u8, lots: u32, refusal: Refusal) -> String {
    match refusal {
        Refusal::UnknownSection => not_held(book, section),
        Refusal::Elevator => format!("elevator {elevator} is above 31"),
        Refusal::NoticeLots => format!("{lots} lots are outside 1 to 1000000"),
        Refusal::NoticeHeld => {
            let code = book.sections[usize::from(section)].code;
            format!("{code} has a notice at elevator {elevator} already")
        }
        _ => format!(
            "{} notices are filed, and there is place for 256",
            book.notices_held
        ),
    }
}

/// Expiry: "22 the last session is none or evening, or a trade followed it"; the
/// first of these that holds.
fn of_expiry(book: &Book) -> String {
    match book.last_session {
        SessionKind::None => "no session was held".to_string(),
        SessionKind::Evening => "the last session is an evening one".to_string(),
        SessionKind::Day => format!("{} trades followed the last session", book.trades_since),
    }
}

/// 10, of any call.
fn not_held(book: &Book, section: u8) -> String {
    let held = book.sections_held;
    format!("section {section} is not held; {held} are, numbered from 0")
}

/// 12 and 16.
fn price_outside(price: u32) -> String {
    format!("price {price} is outside 1 to 10000000")
}
