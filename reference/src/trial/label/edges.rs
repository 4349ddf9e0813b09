//! Files whose numbers stand where another digit begins.

use crate::reading::file::EVENTS;
use crate::reading::file::event::Event;
use crate::reading::file::write;
use crate::trial::hand::{condition, notice, section, session, trade};
use crate::trial::input::Input;

/// The last number of some digits and the first of one more.
const LOTS: [u32; 13] = [
    1, 9, 10, 99, 100, 999, 1_000, 9_999, 10_000, 99_999, 100_000, 999_999, 1_000_000,
];
const LINES: [usize; 4] = [9, 10, 99, 100];
const PLACES: [usize; 8] = [0, 9, 10, 99, 100, 999, 1_000, 3_799];
/// Round trips after which the sums have 13 to 17 digits, the most that there are.
const ROUND_TRIPS: [usize; 5] = [1, 2, 11, 101, 1_001];

pub(super) fn edges() -> impl Iterator<Item = Input> {
    LOTS.iter()
        .map(|&lots| input(format!("lots: {lots}"), &of_lots(lots)))
        .chain(LINES.map(|lines| input(format!("lines: {lines}"), &of_lines(lines))))
        .chain(ROUND_TRIPS.map(|times| input(format!("round trips: {times}"), &of_sums(times))))
        .chain(PLACES.map(|place| refused(6, place, &section(64, false, "A000001", 1))))
        .chain(PLACES.map(|place| refused(10, place, &condition(0, true))))
        .chain([input("sessions alone", &vec![session(1); EVENTS])])
}

/// A file of a contract in which a lot has 1,000 tonnes and a price of 1 has the
/// value 100.
fn input(name: impl Into<String>, events: &[Event]) -> Input {
    Input::new(name, write(1_000, 100, 1, events).expect("few events"))
}

/// A buyer and a seller of so many lots in each of three codes: the first's are
/// delivered, the second's terminated, the third's lapse.
fn of_lots(lots: u32) -> Vec<Event> {
    let mut events = Vec::new();
    for (code, [buyer, seller]) in [[1, 2], [3, 4], [5, 5]].into_iter().enumerate() {
        events.push(section(code as u8, false, &format!("A00000{code}"), buyer));
        events.push(section(code as u8, true, &format!("B00000{code}"), seller));
    }
    for buyer in [0, 2, 4] {
        let whole = (0..lots / 10_000).map(|_| 10_000);
        let parts = whole.chain([lots % 10_000]).filter(|&lots| lots > 0);
        events.extend(parts.map(|lots| trade(buyer, buyer + 1, 1, lots)));
    }
    events.push(session(10_000_000));
    events.extend([0, 1, 4, 5].map(|section| condition(section, true)));
    events.extend([1, 5].map(|seller| notice(seller, 0, lots)));
    events.push(Event::Expiry);
    events
}

/// A buyer, and sellers with a lot at each of up to 25 elevators: a line for each.
fn of_lines(lines: usize) -> Vec<Event> {
    let places: Vec<usize> = (0..lines).collect();
    let sold: Vec<&[usize]> = places.chunks(25).collect();
    let mut events = vec![section(0, false, "A000000", 0)];
    for seller in 1..=sold.len() {
        events.push(section(0, true, &format!("B00000{seller}"), seller as u32));
    }
    let sellers = || (1..).zip(&sold);
    events.extend(sellers().map(|(seller, sold)| trade(0, seller, 1, sold.len() as u32)));
    events.push(session(1));
    events.extend((0..=sold.len()).map(|section| condition(section as u8, true)));
    for (seller, sold) in sellers() {
        events.extend((0..sold.len()).map(|elevator| notice(seller, elevator as u8, 1)));
    }
    events.push(Event::Expiry);
    events
}

/// A section buys low and sells high, so many times; no lots are left.
fn of_sums(round_trips: usize) -> Vec<Event> {
    let trip = [trade(0, 1, 1, 10_000), trade(1, 0, 10_000_000, 10_000)];
    let mut events = vec![
        section(0, false, "A000001", 1),
        section(0, false, "A000002", 2),
    ];
    for trades in vec![trip; round_trips].chunks(1_000) {
        events.extend(trades.iter().flatten());
        events.extend([session(1), session(1)]);
    }
    events.extend([session(1), Event::Expiry]);
    events
}

/// Sessions, and at that place an event that is refused.
fn refused(number: u8, place: usize, event: &Event) -> Input {
    let mut events = vec![session(1); place];
    events.push(*event);
    input(format!("refused {number} {place}"), &events)
}
