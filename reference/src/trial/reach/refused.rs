//! The refusals a file can reach, alone and two at once.

use crate::reading::calls::{open, opening_faults};
use crate::reading::file::event::{self, Event};
use crate::reading::file::whole::Replay;
use crate::reading::file::{self, OPERAND, Reader, SIZES};
use crate::reading::refusal::Refusal;

/// The refusal numbers a file can reach. A read's own book is never broken
/// (1), its lists are never short here (17, 23, 24), and it asks for no event
/// beyond n (28).
pub const NUMBERS: &[u8] = &[
    2, 3, 4, 5, 6, 7, 8, 9, 10, 11, 12, 13, 14, 15, 16, 18, 19, 20, 21, 22, 25, 26, 27,
];

/// Two numbers that can hold of one event or one file, the one answered first.
/// Not there: 7 with 8 and 18 with 20 (what is held is allowed), 10 with 20 (a
/// notice held has a section held), 5 with 15 and 22 (no trade after expiry).
#[rustfmt::skip]
pub const TWO_AT_ONCE: &[(u8, u8)] = &[
    (2, 3), (2, 4), (2, 27), (3, 4), (3, 27), (4, 27), (25, 2), (25, 3), (25, 4),
    (5, 6), (5, 7), (5, 8), (5, 9), (6, 7), (6, 8), (6, 9), (7, 9), (8, 9),
    (5, 10), (5, 11), (5, 12), (5, 13), (5, 14), (10, 11), (10, 12), (10, 13), (10, 14), (10, 15),
    (11, 12), (11, 13), (11, 14), (11, 15), (12, 13), (12, 14), (12, 15), (13, 14), (13, 15), (14, 15),
    (5, 16), (5, 18), (5, 19), (5, 20), (5, 21), (10, 18), (10, 19), (10, 21),
    (18, 19), (18, 21), (19, 20), (19, 21), (20, 21),
    (26, 5), (26, 6), (26, 7), (26, 8), (26, 9), (26, 10), (26, 11), (26, 12), (26, 13), (26, 14),
    (26, 15), (26, 16), (26, 18), (26, 19), (26, 20), (26, 21), (26, 22),
    (5, 27), (6, 27), (7, 27), (8, 27), (9, 27), (10, 27), (11, 27), (12, 27), (13, 27), (14, 27), (15, 27),
    (16, 27), (18, 27), (19, 27), (20, 27), (21, 27), (22, 27), (26, 27),
];

/// The numbers besides the one answered that hold of the same event or file.
pub(super) fn also_holding(file: &[u8], refusal: Refusal, place: usize) -> Vec<Refusal> {
    if file.len() < SIZES {
        return vec![];
    }
    let (lot, w, r) = file::contract_in(file);
    let mut holding = opening_faults(lot, w, r);
    if refusal == Refusal::FileSize {
        return holding;
    }
    let n = file::events_in(file).expect("a file of the right size");
    if !holding.is_empty() {
        holding.extend((n == 0).then_some(Refusal::NoExpiryLast));
        return holding;
    }
    let mut replay = Replay::new(open(lot, w, r).1);
    let mut reader = Reader::new(file);
    while reader.next < place {
        let event = reader
            .read()
            .event
            .expect("an event before the refused one");
        replay
            .take(&event, usize::MAX, usize::MAX)
            .expect("accepted");
    }
    if place < n {
        let kind = file[SIZES + place];
        holding.extend(
            form_mended(kind, reader.read().operand)
                .iter()
                .flat_map(|event| event.faults(&replay.book)),
        );
        holding.extend((place + 1 == n).then_some(Refusal::NoExpiryLast));
    }
    holding
}

/// The event that an operand would be with its form put right.
fn form_mended(kind: u8, operand: &[u8]) -> Option<Event> {
    let layout = event::layout(kind)?;
    let mut mended = [0; OPERAND];
    for (i, byte) in mended.iter_mut().enumerate() {
        *byte = match layout[i] {
            b'.' => 0,
            b'm' => operand[i].min(1),
            _ => operand[i],
        };
    }
    event::decode(kind, &mended).ok()
}
