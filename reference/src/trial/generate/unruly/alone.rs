//! Lists with one refused call.

use super::super::Draft;
use super::growing::Growing;
use crate::reading::book::SECTIONS;
use crate::trial::random::Random;

/// The numbers of calls that a file can reach, and 26.
const NUMBERS: [u8; 18] = [
    5, 6, 7, 8, 9, 10, 11, 12, 13, 14, 15, 16, 18, 19, 20, 21, 22, 26,
];

/// Accepted calls, one that is refused with a number, and accepted ones after it
/// where any can be. Eighteen turns have every number.
pub(super) fn alone(random: &mut Random, turn: usize) -> Draft {
    let number = NUMBERS[turn % NUMBERS.len()];
    let mut list = Growing::new(random);
    before(&mut list, number);
    match number {
        26 => list.unreadable(),
        _ => list.refused(number),
    }
    if number == 15 {
        list.session();
    }
    if number != 5 {
        list.trades(0..=3, 0);
        list.finish();
    }
    list.draft()
}

/// What lets the number be the only one that holds.
fn before(list: &mut Growing, number: u8) {
    match number {
        9 => list.sections(SECTIONS..=SECTIONS),
        21 => list.sections(40..=40),
        _ => list.sections(2..=7),
    }
    match number {
        14 => (0..100).for_each(|_| list.lean()),
        15 => list.trades(2_000..=2_000, 0),
        _ => list.trades(0..=11, 0),
    }
    match number {
        5 => list.finish(),
        15 => {}
        20 => list.notices(1),
        21 => list.notices(8),
        22 => (0..2 * list.some(0..=1)).for_each(|_| list.session()),
        _ if list.random.percent(50) => list.session(),
        _ => {}
    }
}
