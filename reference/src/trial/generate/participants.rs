//! Whose the sections of a contract are: most often a few persons', so that lines
//! are removed (document 02, a).

use crate::trial::random::Random;

/// The least numbers and the greatest, and some that are 0 but for one byte or
/// one bit.
const NUMBERS: [u32; 8] = [
    0,
    1,
    1 << 8,
    1 << 16,
    1 << 24,
    1 << 31,
    u32::MAX - 1,
    u32::MAX,
];

/// How many persons share the sections, 0 where each section has its own.
const SHARING: [usize; 12] = [0, 0, 0, 1, 2, 2, 3, 3, 5, 5, 8, 8];

/// The participants of one contract.
#[derive(Clone, Debug)]
pub(super) struct Participants {
    few: Vec<u32>,
    /// The next number where each section has its own.
    own: u32,
}

impl Participants {
    pub(super) fn new(random: &mut Random) -> Participants {
        let mut numbers = NUMBERS;
        random.shuffle(&mut numbers);
        let few = numbers[..random.pick(&SHARING)].to_vec();
        let any = random.bits() as u32;
        let own = random.pick(&[0, 1, u32::MAX - 2, any]);
        Participants { few, own }
    }

    /// The participant of the next section.
    pub(super) fn next(&mut self, random: &mut Random) -> u32 {
        if !self.few.is_empty() {
            return random.pick(&self.few);
        }
        let own = self.own;
        self.own = own.wrapping_add(1);
        own
    }
}
