//! Seeded random numbers (SplitMix64): the same seed gives the same numbers on
//! every machine.

/// A source of numbers that its seed alone decides.
#[derive(Clone, Debug)]
pub struct Random {
    state: u64,
}

impl Random {
    /// A source for a seed.
    pub fn new(seed: u64) -> Random {
        Random { state: seed }
    }

    /// The next 64 bits.
    pub fn bits(&mut self) -> u64 {
        self.state = self.state.wrapping_add(0x9E37_79B9_7F4A_7C15);
        let mut z = self.state;
        z = (z ^ (z >> 30)).wrapping_mul(0xBF58_476D_1CE4_E5B9);
        z = (z ^ (z >> 27)).wrapping_mul(0x94D0_49BB_1331_11EB);
        z ^ (z >> 31)
    }

    /// A number below `bound`, which is not 0.
    pub fn below(&mut self, bound: usize) -> usize {
        ((u128::from(self.bits()) * bound as u128) >> 64) as usize
    }

    /// A number from `low` to `high`, both included.
    pub fn from_to(&mut self, low: u32, high: u32) -> u32 {
        let span = usize::try_from(high - low).expect("32 bits") + 1;
        low + self.below(span) as u32
    }

    /// Yes in so many of a hundred cases.
    pub fn percent(&mut self, chance: usize) -> bool {
        self.below(100) < chance
    }

    /// One of the items.
    pub fn pick<T: Copy>(&mut self, items: &[T]) -> T {
        items[self.below(items.len())]
    }

    /// Puts the items into a random order.
    pub fn shuffle<T>(&mut self, items: &mut [T]) {
        for i in (1..items.len()).rev() {
            items.swap(i, self.below(i + 1));
        }
    }
}

/// The seeds from SEED on, COUNT of them, as two arguments ask for them.
pub fn seeds(count: &str, seed: &str) -> Result<Vec<u64>, String> {
    let bad_count = || format!("COUNT is a whole number above 0, not {count:?}");
    let count: u64 = count
        .parse()
        .ok()
        .filter(|&count| count > 0)
        .ok_or_else(bad_count)?;
    let seed: u64 = seed
        .parse()
        .map_err(|_| format!("SEED is a whole number, not {seed:?}"))?;
    Ok((0..count).map(|i| seed.wrapping_add(i)).collect())
}
