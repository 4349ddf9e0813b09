//! Medium books, mostly accepted.

use super::Draft;
use super::contracts::contract;
use super::faults::{ANY, insert_fault};
use super::markets::{Shape, flows, market};
use crate::trial::random::Random;

/// A book that is mostly accepted, with many lines, ties and splits.
pub(super) fn medium(random: &mut Random) -> Draft {
    let contract = contract(random, 20);
    let sections = 6 + random.below(35);
    let shape = Shape {
        sections,
        settlement_codes: 1 + random.below(8),
        notices: 1 + random.below(8),
        all_notices: random.percent(30),
        elevators: 1 + random.below(10),
        failing: random.pick(&[0, 5, 15, 35]),
        sessions: random.pick(&[0, 3, 20]),
        round_trips: random.below(6),
        ..Shape::default()
    };
    let count = sections / 2 + random.below(2 * sections);
    let most = random.pick(&[1, 2, 5, 30, 2_000]);
    let flows = flows(random, sections, count, most);
    let mut draft = Draft::new(contract, &market(random, contract, &shape, &flows));
    if random.percent(4) {
        insert_fault(random, &mut draft, &ANY);
    }
    draft
}
