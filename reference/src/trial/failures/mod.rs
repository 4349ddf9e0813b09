//! The cases that are given to the program `failures`, each a file and arguments:
//! misshapen files, the examples, cases that are always given, and those of seeds.

mod always;
mod arguments;
pub mod reach;
mod turns;
mod view;

use super::generate::unruly::unruly;
use super::generate::{self, desk};
use super::input::Input;
use super::random::Random;
use crate::reading::failures::{NAMED, looked_at, printed};
use crate::reading::file::contract_in;
use arguments::{Choice, Fault};

/// A file, and the arguments that it is given with.
pub struct Case {
    pub input: Input,
    pub arguments: Vec<String>,
}

impl Case {
    /// The arguments as the program is given them.
    pub fn given(&self) -> Vec<&str> {
        self.arguments.iter().map(String::as_str).collect()
    }

    /// What the program prints, where the arguments are not turned away.
    pub fn prints(&self) -> Option<String> {
        let bytes: Vec<&[u8]> = self.arguments.iter().map(String::as_bytes).collect();
        printed(&bytes, &self.input.bytes)
    }
}

/// Those that are always given first, those of the seeds last.
pub fn cases(seeds: &[u64]) -> impl Iterator<Item = Case> {
    always::cases().chain(seeds.iter().map(|&seed| of_seed(seed)))
}

/// The case of a seed. Of sixteen in a row ten have a small book and from 0 to 10
/// sections named, in turn; two have any file of the other generators; one has an
/// unknown section, one more than 10 named or one twice, one both; and of one the file
/// opens no book.
fn of_seed(seed: u64) -> Case {
    let random = &mut Random::new(seed);
    let (round, place) = (seed / 16, (seed % 16) as usize);
    let turn = (round % 12) as usize;
    let file = match place {
        0..10 => desk(random, named_in_turn(round, place)),
        10 => generate::file(random.bits()),
        11 => unruly(random.bits()),
        12 => desk(random, 2),
        13 | 14 => desk(random, NAMED + 1),
        _ => unopened(random, turn),
    };
    let choice = Choice {
        named: match place {
            0..10 => named_in_turn(round, place),
            _ => random.below(5),
        },
        fault: match place {
            12 => Some([Fault::AskedUnknown, Fault::NamedUnknown][turn % 2]),
            13 => Some([Fault::TooMany, Fault::Twice, Fault::TwiceOfTooMany][turn % 3]),
            14 => Some([Fault::UnknownOfTooMany, Fault::UnknownAndTwice][turn % 2]),
            _ => None,
        },
    };
    let arguments = match looked_at(&file) {
        Ok(book) => choice.arguments(random, &book),
        Err(_) => arguments::of_no_book(random),
    };
    Case {
        input: Input::new(format!("seed {seed}"), file),
        arguments,
    }
}

/// How many are named: eleven cases in a row have every number from 0 to 10.
fn named_in_turn(round: u64, place: usize) -> usize {
    (round % 11 * 10 + place as u64) as usize % 11
}

/// A file whose opening is refused with 2, 3 or 4, or whose length is not fit.
fn unopened(random: &mut Random, turn: usize) -> Vec<u8> {
    let mut file = desk(random, 2);
    let (mut lot, mut w, mut r) = contract_in(&file);
    match turn % 4 {
        0 => lot = random.pick(&[0, 1_001, u32::MAX]),
        1 if random.percent(50) => w = random.pick(&[0, 1_000_001, u32::MAX]),
        1 => r = random.pick(&[0, 1_000_001, u32::MAX]),
        2 => (w, r) = random.pick(&[(1, 200_001), (101, 1), (1_000_000, 1)]),
        _ => file.truncate(random.below(file.len())),
    }
    for (bytes, size) in file.chunks_exact_mut(4).skip(1).zip([lot, w, r]) {
        bytes.copy_from_slice(&size.to_le_bytes());
    }
    file
}
