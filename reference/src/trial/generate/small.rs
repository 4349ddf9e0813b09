//! Small books, which reach the refusals.

use super::contracts::contract;
use super::faults::{
    ANY, AT_HEAVY_POSITIONS, AT_MANY_NOTICES, AT_MANY_SECTIONS, break_opening, drop_expiry,
    insert_fault, insert_malformed, soup, spoil_end,
};
use super::markets::{Flow, Shape, flows, market};
use super::{Contract, Draft};
use crate::reading::file::event::Event;
use crate::trial::random::Random;

/// A small book with no fault or a few, or one that fills a limit cheaply.
pub(super) fn small(random: &mut Random) -> Draft {
    let contract = contract(random, 20);
    let (events, aims) = match random.below(100) {
        0..6 => (idle_market(random, contract), &ANY),
        6..68 => (tiny_market(random, contract), &ANY),
        68..77 => (market_of_many_sections(random, contract), &AT_MANY_SECTIONS),
        77..88 => (market_of_many_notices(random, contract), &AT_MANY_NOTICES),
        _ => (heavy_market(random, contract, 0), &AT_HEAVY_POSITIONS),
    };
    let mut draft = Draft::new(contract, &events);
    match random.below(100) {
        0..12 => {}
        12..60 => insert_fault(random, &mut draft, aims),
        60..70 => (0..3).for_each(|_| insert_fault(random, &mut draft, aims)),
        70..82 => insert_malformed(random, &mut draft, aims),
        82..92 => break_opening(random, &mut draft),
        92..95 => drop_expiry(random, &mut draft),
        95..98 => spoil_end(random, &mut draft),
        _ => soup(random, &mut draft),
    }
    draft
}

/// No trade at all, and few sections or none.
fn idle_market(random: &mut Random, contract: Contract) -> Vec<Event> {
    let shape = Shape {
        sections: random.below(3),
        settlement_codes: 2,
        notices: 2,
        elevators: 2,
        failing: 30,
        ..Shape::default()
    };
    market(random, contract, &shape, &[])
}

/// Two to eight sections with a few lots each.
fn tiny_market(random: &mut Random, contract: Contract) -> Vec<Event> {
    let shape = Shape {
        sections: 2 + random.below(7),
        settlement_codes: 1 + random.below(4),
        notices: 4,
        elevators: 1 + random.below(6),
        failing: random.pick(&[0, 20, 40]),
        sessions: random.pick(&[0, 20, 50]),
        round_trips: random.below(2),
        ..Shape::default()
    };
    let count = 1 + random.below(8);
    let most = random.pick(&[1, 3, 12, 10_000]);
    let flows = flows(random, shape.sections, count, most);
    market(random, contract, &shape, &flows)
}

/// 128 sections, few of them with lots.
fn market_of_many_sections(random: &mut Random, contract: Contract) -> Vec<Event> {
    let shape = Shape {
        sections: 128,
        settlement_codes: 1 + random.below(64),
        notices: 2,
        elevators: 3,
        failing: 10,
        sessions: 10,
        ..Shape::default()
    };
    let flows = flows(random, shape.sections, 12, 3);
    market(random, contract, &shape, &flows)
}

/// 256 notices.
fn market_of_many_notices(random: &mut Random, contract: Contract) -> Vec<Event> {
    let sellers = 8;
    let shape = Shape {
        sections: sellers + 4,
        settlement_codes: 1 + random.below(4),
        notices: 32,
        all_notices: true,
        elevators: 32,
        sessions: 10,
        ..Shape::default()
    };
    let flow = |random: &mut Random, seller: usize| Flow {
        buyer: sellers + random.below(4),
        seller,
        lots: random.from_to(32, 100),
    };
    let flows: Vec<Flow> = (0..sellers).map(|seller| flow(random, seller)).collect();
    market(random, contract, &shape, &flows)
}

/// Two or four sections with positions at the limit or next to it.
pub(super) fn heavy_market(
    random: &mut Random,
    contract: Contract,
    round_trips: usize,
) -> Vec<Event> {
    let couples = 1 + random.below(2);
    let shape = Shape {
        sections: 2 * couples + random.below(3),
        settlement_codes: 1 + random.below(3),
        notices: 4,
        elevators: 4,
        failing: random.pick(&[0, 0, 20]),
        sessions: random.pick(&[0, 2]),
        round_trips,
        ruinous: random.percent(50),
        ..Shape::default()
    };
    let flow = |random: &mut Random, couple: usize| Flow {
        buyer: 2 * couple,
        seller: 2 * couple + 1,
        lots: random.pick(&[1_000_000, 1_000_000, 999_999, 990_001]),
    };
    let flows: Vec<Flow> = (0..couples).map(|couple| flow(random, couple)).collect();
    market(random, contract, &shape, &flows)
}
