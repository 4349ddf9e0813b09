//! Contracts that open, and prices in them.

use super::Contract;
use crate::reading::calls::opening_faults;
use crate::trial::random::Random;

/// W and R with K at 1: exact, rounded down to 1, a half rounded up to 1.
const LEAST_FACTOR: [(u32, u32); 4] = [(1, 100_000), (1, 200_000), (5, 1_000_000), (7, 500_000)];
/// W and R with K at 10,000,000.
const MOST_FACTOR: [(u32, u32); 3] = [(100, 1), (1_000_000, 10_000), (2_500, 25)];
/// Other W and R: K exact, rounded, a half rounded up; with (1, 2) every odd
/// price's value is a half.
const FACTORS: [(u32, u32); 11] = [
    (2_500, 100),
    (1, 1),
    (1, 3),
    (2, 3),
    (7, 300),
    (1, 7),
    (1_000_000, 1_000_000),
    (3, 70_000),
    (1, 2),
    (1, 64),
    (3, 64),
];

/// A contract that opens.
pub(super) fn contract(random: &mut Random, extreme: usize) -> Contract {
    let own = random.from_to(1, 1_000);
    let lot = random.pick(&[1, 25, 1_000, own]);
    let (w, r) = match random.percent(extreme) {
        true if random.percent(50) => random.pick(&LEAST_FACTOR),
        true => random.pick(&MOST_FACTOR),
        false if random.percent(70) => random.pick(&FACTORS),
        false => any_step(random),
    };
    Contract { lot, w, r }
}

/// Any W and R whose K is within its limits.
fn any_step(random: &mut Random) -> (u32, u32) {
    loop {
        let most = random.pick(&[100, 10_000, 1_000_000]);
        let (w, r) = (random.from_to(1, most), random.from_to(1, most));
        if opening_faults(1, w, r).is_empty() {
            return (w, r);
        }
    }
}

/// Prices around a level, trades on multiples of R.
#[derive(Clone, Copy, Debug)]
pub(super) struct Prices {
    pub(super) r: u32,
    level: u32,
}

impl Prices {
    pub(super) fn new(random: &mut Random, r: u32) -> Prices {
        let level = random.from_to(1, 10_000_000 / r);
        Prices { r, level }
    }

    /// A price a trade may have.
    pub(super) fn trade(&self, random: &mut Random) -> u32 {
        let most = 10_000_000 / self.r;
        let near = (self.level + random.from_to(0, 40))
            .saturating_sub(20)
            .clamp(1, most);
        let steps = match random.below(10) {
            0 => 1,
            1 => most,
            _ => near,
        };
        steps * self.r
    }

    /// A price a session may have, often next to where a value changes.
    pub(super) fn session(&self, random: &mut Random) -> u32 {
        let near = self.level * self.r + random.from_to(0, 2_000);
        let any = random.from_to(1, 10_000_000);
        let edge = random.pick(&[
            1, 49_999, 50_000, 149_999, 150_000, 250_000, 9_999_999, 10_000_000,
        ]);
        random.pick(&[near, near, any, edge]).clamp(1, 10_000_000)
    }
}
