//! The files that are given to the program `columns`: random bytes of every
//! length that matters, the examples, and the files of seeds.

pub mod reach;

use super::examples::examples;
use super::input::Input;
use super::random::Random;
use crate::reading::file::{EVENTS, length};
use std::collections::BTreeSet;

/// The longest length that is given.
const LONGEST: usize = 200_000;
/// One seed of so many gives a file of random bytes too.
const SEEDS: usize = 10;

/// The lengths first, short ones before long ones, then the longest fit file and
/// one that is too long in pieces, the examples whole and cut, and the files of
/// the seeds.
pub fn inputs(seeds: &[u64]) -> impl Iterator<Item = Input> {
    let longest = length(EVENTS);
    lengths()
        .into_iter()
        .map(of_length)
        .chain([longest, longest + 1].map(in_pieces))
        .chain(examples().map(|(name, bytes)| Input::new(name, bytes)))
        .chain(examples().map(|(name, bytes)| cut(name, &bytes)))
        .chain(seeds.iter().map(|&seed| Input::of_seed(seed)))
        .chain(seeds.iter().step_by(SEEDS).map(|&seed| of_events(seed)))
}

/// All lengths up to 40; those of up to 40 events and of 3,799 to 3,801, each
/// with one byte fewer and one byte more; and a length far beyond them.
fn lengths() -> BTreeSet<usize> {
    let events = (0..=40).chain(EVENTS - 1..=EVENTS + 1);
    let near = events.flat_map(|n| length(n) - 1..=length(n) + 1);
    (0..=40).chain(near).chain([LONGEST]).collect()
}

fn of_length(length: usize) -> Input {
    let bytes = random_bytes(length as u64, length);
    Input::new(format!("{length} random bytes"), bytes)
}

fn in_pieces(length: usize) -> Input {
    let whole = of_length(length);
    Input {
        name: format!("{} in pieces", whole.name),
        bytes: whole.bytes,
        in_pieces: true,
    }
}

/// A file whose sizes say what they should and whose length is not fit.
fn cut(name: &str, bytes: &[u8]) -> Input {
    let name = format!("{name} without its last byte");
    Input::new(name, bytes[..bytes.len() - 1].to_vec())
}

/// A file of any number of events.
fn of_events(seed: u64) -> Input {
    let n = Random::new(seed).below(EVENTS + 1);
    let name = format!("{n} events of random bytes, seed {seed}");
    Input::new(name, random_bytes(seed, length(n)))
}

/// Bytes of which hardly one is its neighbour's. The sizes among them say any n,
/// and so do the kinds.
pub fn random_bytes(seed: u64, length: usize) -> Vec<u8> {
    let mut random = Random::new(seed);
    (0..length).map(|_| random.bits() as u8).collect()
}
