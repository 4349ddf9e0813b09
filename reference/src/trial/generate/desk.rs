//! Small books that the risk desk looks at before their expiry (document 02, n).

use super::contracts::contract;
use super::faults::{ANY, insert_fault, insert_malformed};
use super::markets::{Shape, flows, market};
use super::{Draft, Raw};
use crate::reading::file::event::{Event, encode};
use crate::trial::hand::{session, trade};
use crate::trial::random::Random;

/// The file of a book with so many sections or some more. It may end anywhere: after
/// a day session or an evening one, after trades, without any session. It has an
/// expiry at its end, where one would be accepted, anywhere or nowhere; some of its
/// events are refused or do not read.
pub fn desk(random: &mut Random, least: usize) -> Vec<u8> {
    let contract = contract(random, 20);
    let sections = least.max(2) + random.below(5);
    let shape = Shape {
        sections,
        settlement_codes: 1 + random.below(5),
        notices: 1 + random.below(4),
        elevators: 1 + random.below(6),
        failing: random.pick(&[0, 10, 30]),
        sessions: random.pick(&[0, 0, 20]),
        round_trips: random.below(2),
        ..Shape::default()
    };
    let count = 1 + sections / 2 + random.below(2 * sections);
    let most = random.pick(&[1, 3, 12, 10_000]);
    let flows = flows(random, sections, count, most);
    let mut draft = Draft::new(contract, &market(random, contract, &shape, &flows));
    place_expiry(random, &mut draft);
    end(random, &mut draft, sections);
    for _ in 0..random.pick(&[0, 0, 1, 2]) {
        insert_fault(random, &mut draft, &ANY);
    }
    for _ in 0..random.pick(&[0, 0, 1, 2]) {
        insert_malformed(random, &mut draft, &ANY);
    }
    draft.bytes()
}

fn is_session((kind, _): &Raw) -> bool {
    *kind == 3
}

/// Leaves the expiry where it is, drops it, or puts it after the last session, where
/// it would be accepted and more follows, or anywhere.
fn place_expiry(random: &mut Random, draft: &mut Draft) {
    let turn = random.below(4);
    let Some(expiry) = draft.events.pop_if(|_| turn > 0) else {
        return;
    };
    let last = draft.events.iter().rposition(is_session);
    let place = match turn {
        1 => return,
        2 => last.map_or(0, |last| last + 1),
        _ => random.below(draft.events.len() + 1),
    };
    draft.events.insert(place, expiry);
}

/// Leaves the end as it is, takes all sessions away, adds an evening session, or adds
/// trades.
fn end(random: &mut Random, draft: &mut Draft, sections: usize) {
    let price = draft.contract.r;
    let more: Vec<Event> = match random.below(10) {
        0 => {
            draft.events.retain(|event| !is_session(event));
            vec![]
        }
        1 | 2 => vec![session(price)],
        3 | 4 => {
            let one = |random: &mut Random| {
                let buyer = random.below(sections);
                let seller = (buyer + 1 + random.below(sections - 1)) % sections;
                trade(buyer as u8, seller as u8, price, random.from_to(1, 3))
            };
            (0..random.from_to(1, 2)).map(|_| one(random)).collect()
        }
        _ => vec![],
    };
    draft.events.extend(more.iter().map(encode));
}
