//! A file for every number that a read is refused with, and for every way of it.

use crate::reading::book::SectionCode;
use crate::reading::file::event::{Event, layout};
use crate::reading::file::{OPERAND, SIZES, write};
use crate::trial::hand::{condition, notice, section, session, trade, worked};
use crate::trial::input::Input;

/// The number and how it comes about, and the events, the last of them refused.
type Refused = (String, Vec<Event>);

pub(super) fn inputs() -> impl Iterator<Item = Input> {
    let events = of_section()
        .into_iter()
        .chain(of_trade())
        .chain(of_notice())
        .chain(of_session_and_condition())
        .chain(of_expiry())
        .chain(after_expiry())
        .chain(without_expiry());
    openings()
        .into_iter()
        .chain(events.map(|(name, events)| input(name, &events)))
        .chain(code_bytes())
        .chain(unread())
}

/// A contract in which the step is 10, so that not every price is a multiple.
fn input(name: impl Into<String>, events: &[Event]) -> Input {
    Input::new(name, write(10, 10, 10, events).expect("few events"))
}

/// 2 to 4, at both ends, with a division of every sort, and by 0.
fn openings() -> Vec<Input> {
    let most = u32::MAX;
    let sizes = [
        (0, 1, 1),
        (1_001, 1, 1),
        (most, most, most),
        (0, 0, 0),
        (0, 1, 0),
        (1, 0, 1),
        (1, 1, 0),
        (1, 0, 0),
        (1, most, 0),
        (1, 1_000_001, 1),
        (1, 1, 1_000_001),
        (1, most, 7),
        (1, most, most - 1),
        (1, 101, 1),
        (1, 1, 200_001),
        (1, 1, 200_000),
        (1_000, 1, 199_999),
        (1_000, 1, 3),
        (1, 2, 3),
        (1, 1, 1_000_000),
        (1, 1_000_000, 10_000),
        (1, 1_000_000, 9_999),
        (1, 100, 1),
    ];
    let file = |(lot, w, r)| {
        let events = [session(r), session(50_000), Event::Expiry];
        let bytes = write(lot, w, r, &events).expect("few events");
        Input::new(format!("lot {lot}, W {w}, R {r}"), bytes)
    };
    sizes.into_iter().map(file).collect()
}

/// Two sections, of numbers 0 and 1.
fn two() -> Vec<Event> {
    vec![
        section(0, false, "A000001", 1),
        section(63, true, "Z999999", u32::MAX),
    ]
}

/// Each event after these.
fn each(name: &str, before: &[Event], events: &[Event]) -> Vec<Refused> {
    let with = |event: &Event| [before, &[*event]].concat();
    let files = events.iter().enumerate();
    files
        .map(|(i, event)| (format!("{name}, {i}"), with(event)))
        .collect()
}

/// 6, 8 and 9; two at once; and, after so many events that their number has four
/// digits, a section whose row has 100 columns.
fn of_section() -> Vec<Refused> {
    let full: Vec<Event> = (0..128)
        .map(|i| section(i % 64, i % 2 == 0, &format!("S{i:06}"), i.into()))
        .collect();
    let wide = Event::Section {
        settlement_code: 255,
        seller: true,
        code: SectionCode([255; 7]),
        participant: u32::MAX,
    };
    let high = [64, 255].map(|code| section(code, false, "A000001", 1));
    let held = ["A000001", "Z999999"].map(|code| section(1, true, code, 1));
    let mut files = each("refused 6", &two(), &high);
    files.extend(each(
        "refused 6, a row of 100 columns",
        &[session(1); 1_000],
        &[wide],
    ));
    files.extend(each("refused 6, bytes in base 16", &two(), &[wide]));
    files.extend(each("refused 8", &two(), &held));
    files.extend(each(
        "refused 8 and 9",
        &full,
        &[section(1, true, "S000127", 1)],
    ));
    files.extend(each("refused 9", &full, &[section(1, true, "S000128", 1)]));
    files
}

/// 7 and 27: every byte in a section code.
fn code_bytes() -> impl Iterator<Item = Input> {
    (0..=255).map(|byte: u8| {
        let mut code = *b"A0Z9B1C";
        code[usize::from(byte % 7)] = byte;
        let event = Event::Section {
            settlement_code: 1,
            seller: false,
            code: SectionCode(code),
            participant: 1,
        };
        input(format!("byte {byte} in a section code"), &[event])
    })
}

/// 10 to 15.
fn of_trade() -> Vec<Refused> {
    let unknown = [[2, 1], [0, 2], [255, 254], [7, 7]];
    let unknown = unknown.map(|[buyer, seller]| trade(buyer, seller, 100, 1));
    let itself = [trade(1, 1, 100, 1), trade(0, 0, 0, 0)];
    let outside = [0, 10_000_001, 10_000_010, u32::MAX, 15, 9_999_999];
    let outside = outside.map(|price| trade(0, 1, price, 1));
    let lots = [0, 10_001, u32::MAX].map(|lots| trade(0, 1, 100, lots));
    let mut full = two();
    full.push(section(2, true, "M000000", 3));
    full.extend([trade(0, 1, 100, 10_000); 100]);
    let passed = [(0, 1), (0, 2), (2, 1)];
    let passed = passed.map(|(buyer, seller)| trade(buyer, seller, 10, 10_000));
    let many = [
        two(),
        [trade(0, 1, 100, 1), trade(1, 0, 100, 1)].repeat(1_000),
    ]
    .concat();
    let mut files = each("refused 10", &two(), &unknown);
    files.extend(each("refused 10, no section", &[], &unknown));
    files.extend(each("refused 11", &two(), &itself));
    files.extend(each("refused 12", &two(), &outside));
    files.extend(each("refused 13", &two(), &lots));
    files.extend(each("refused 14", &full, &passed));
    files.extend(each("refused 15", &many, &[trade(0, 1, 100, 1)]));
    files
}

/// 10, and 18 to 21.
fn of_notice() -> Vec<Refused> {
    let unknown = [notice(2, 0, 1), notice(255, 255, 0)];
    let above = [32, 255].map(|elevator| notice(1, elevator, 1));
    let lots = [0, 1_000_001, u32::MAX].map(|lots| notice(1, 31, lots));
    let filed = [two(), vec![notice(1, 31, 1), notice(0, 0, 1)]].concat();
    let mut full: Vec<Event> = (0..9)
        .map(|i| section(1, true, &format!("S00000{i}"), 1))
        .collect();
    full.extend((0..=255).map(|i: u8| notice(i / 32, i % 32, 1_000_000)));
    let mut files = each("refused 10, notice", &two(), &unknown);
    files.extend(each("refused 18", &two(), &above));
    files.extend(each("refused 19", &two(), &lots));
    files.extend(each(
        "refused 20",
        &filed,
        &[notice(1, 31, 2), notice(0, 0, 1)],
    ));
    files.extend(each("refused 20 and 21", &full, &[notice(7, 31, 1)]));
    files.extend(each("refused 21", &full, &[notice(8, 0, 1)]));
    files
}

/// 10 and 16.
fn of_session_and_condition() -> Vec<Refused> {
    let unknown = [condition(2, true), condition(255, false)];
    let prices = [0, 10_000_001, u32::MAX].map(session);
    let mut files = each("refused 10, condition", &two(), &unknown);
    files.extend(each("refused 16", &two(), &prices));
    files
}

/// 22, in all three ways and in two at once, after one session and after more.
fn of_expiry() -> Vec<Refused> {
    let traded = trade(0, 1, 100, 1);
    let none = [two(), vec![traded]].concat();
    let evening = [two(), vec![traded, session(1), session(2)]].concat();
    let evening_traded = [&evening[..], &[traded]].concat();
    let followed = [two(), vec![session(1), traded]].concat();
    let followed_later = [&evening[..], &[session(3), traded, traded]].concat();
    let ways = [
        two(),
        none,
        evening,
        evening_traded,
        followed,
        followed_later,
    ];
    let files = ways.into_iter();
    files
        .flat_map(|before| each("refused 22", &before, &[Event::Expiry]))
        .collect()
}

/// 5, of every event, other faults among them.
fn after_expiry() -> Vec<Refused> {
    let events = [
        section(1, false, "A000001", 1),
        section(64, true, "a\u{1} \\~!\u{7f}", 4),
        trade(0, 1, 100, 1),
        trade(9, 9, 0, 0),
        session(100),
        session(0),
        condition(0, true),
        condition(9, false),
        notice(0, 0, 1),
        notice(9, 99, 0),
        Event::Expiry,
    ];
    each("refused 5", &worked().events, &events)
}

/// 27, after events of every kind and after none.
fn without_expiry() -> Vec<Refused> {
    let mut worked = worked().events;
    worked.pop();
    vec![
        ("refused 27".to_string(), worked),
        ("refused 27, sections".to_string(), two()),
        ("refused 27, no event".to_string(), vec![]),
    ]
}

/// 26: kinds that are none, every byte of every kind, all at once, and one that is
/// wrong behind others.
fn unread() -> Vec<Input> {
    let kinds = [0, 7, 8, 127, 255];
    let mut files: Vec<Input> = kinds.iter().map(|&kind| raw(kind, [1; OPERAND])).collect();
    for kind in 1..=6 {
        let layout = layout(kind).expect("a kind of event");
        files.push(raw(kind, [255; OPERAND]));
        files.push(raw(kind, [2; OPERAND]));
        for at in 0..OPERAND {
            let mut operand = [0; OPERAND];
            operand[at] = if layout[at] == b'm' { 2 } else { 1 };
            files.push(raw(kind, operand));
        }
    }
    files
}

/// A section, then an event of these bytes, then an expiry.
fn raw(kind: u8, operand: [u8; OPERAND]) -> Input {
    let events = [section(1, true, "A000001", 1), session(1), Event::Expiry];
    let mut file = write(1, 1, 1, &events).expect("few events");
    let at = SIZES + events.len() + OPERAND;
    file[SIZES + 1] = kind;
    file[at..at + OPERAND].copy_from_slice(&operand);
    Input::new(format!("kind {kind}, operand {operand:?}"), file)
}
