//! Damaged files.

use super::Draft;
use super::medium::medium;
use super::small::small;
use crate::reading::file::{self, EVENTS, SIZES};
use crate::trial::random::Random;

/// A file of another kind, damaged.
pub(super) fn damaged(random: &mut Random) -> Vec<u8> {
    let draft = match random.percent(60) {
        true => small(random),
        false => medium(random),
    };
    let mut bytes = draft.bytes();
    match random.below(12) {
        0..4 => flip(random, &mut bytes),
        4 => bytes.truncate(random.below(bytes.len() + 1)),
        5 => lengthen(random, &mut bytes),
        6 => set_n(random, &mut bytes),
        7 => one_more_event(random, &mut bytes),
        8 => too_many_events(random, &mut bytes),
        9 => swap_events(random, draft, &mut bytes),
        10 => bytes.truncate(random.below(SIZES + 1)),
        _ => change_byte(random, &mut bytes),
    }
    bytes
}

/// Flips one to three bits.
fn flip(random: &mut Random, bytes: &mut [u8]) {
    for _ in 0..1 + random.below(3) {
        let sizes = bytes.len().min(SIZES);
        let place = match random.percent(15) {
            true => random.below(sizes),
            false => random.below(bytes.len()),
        };
        bytes[place] ^= 1 << random.below(8);
    }
}

/// Changes one byte after the sizes, where there is one.
fn change_byte(random: &mut Random, bytes: &mut [u8]) {
    let place = random.below(bytes.len());
    bytes[place] = random.bits() as u8;
}

/// Adds bytes at the end.
fn lengthen(random: &mut Random, bytes: &mut Vec<u8>) {
    let more = random.pick(&[1, 16, 17, 34, 40]);
    bytes.extend((0..more).map(|_| random.bits() as u8 & random.pick(&[0, 255])));
}

/// Writes a wrong n.
fn set_n(random: &mut Random, bytes: &mut [u8]) {
    let n = u32::from_le_bytes(bytes[..4].try_into().expect("four bytes"));
    let any = random.bits() as u32;
    let wrong = random.pick(&[n.wrapping_sub(1), n + 1, 0, 3_801, u32::MAX, any]);
    bytes[..4].copy_from_slice(&wrong.to_le_bytes());
}

/// Counts one event more and adds its 17 bytes at the end, so that the two
/// arrays part at another place.
fn one_more_event(random: &mut Random, bytes: &mut Vec<u8>) {
    let n = u32::from_le_bytes(bytes[..4].try_into().expect("four bytes"));
    bytes[..4].copy_from_slice(&(n + 1).to_le_bytes());
    bytes.extend((0..17).map(|_| random.below(3) as u8));
}

/// More than 3,800 events in a file whose length fits them.
fn too_many_events(random: &mut Random, bytes: &mut Vec<u8>) {
    let n = EVENTS + 1 + random.below(2);
    bytes[..4].copy_from_slice(&(n as u32).to_le_bytes());
    bytes.resize(file::length(n), 0);
}

/// Puts two events in each other's place.
fn swap_events(random: &mut Random, mut draft: Draft, bytes: &mut Vec<u8>) {
    let n = draft.events.len();
    if n > 0 {
        draft.events.swap(random.below(n), random.below(n));
    }
    *bytes = draft.bytes();
}
