//! The files that are given to the program `calls`: misshapen ones, the examples,
//! the file of most rows, and the files of seeds.

pub mod reach;
mod turns;
mod view;

use super::examples::examples;
use super::generate;
use super::generate::unruly::{unruly, widest};
use super::hand::worked;
use super::input::Input;
use crate::reading::file::{EVENTS, length};

/// The file a seed gives: one of four is the ordinary generator's, in turn of its
/// four kinds.
pub fn file(seed: u64) -> Vec<u8> {
    match seed % 4 {
        3 => generate::file(seed),
        _ => unruly(seed),
    }
}

/// Short ones first, those of the seeds last.
pub fn inputs(seeds: &[u64]) -> impl Iterator<Item = Input> {
    shapes()
        .chain([Input::new("the file of most rows", widest())])
        .chain(seeds.iter().map(|&seed| of_seed(seed)))
}

/// Misshapen files, the examples, and long files in pieces.
pub(super) fn shapes() -> impl Iterator<Item = Input> {
    misshapen()
        .into_iter()
        .chain(examples().map(|(name, bytes)| Input::new(name, bytes)))
        .chain(in_pieces())
}

fn of_seed(seed: u64) -> Input {
    Input::new(format!("seed {seed}"), file(seed))
}

/// Lengths that are not those of the events that the sizes say, and too many
/// events. Some would be fit if a program read no further than it needs.
fn misshapen() -> Vec<Input> {
    let (worked, longest) = (worked().file(), longest());
    let more = |n: usize| [&longest[..], &vec![0; n]].concat();
    let said = |n: usize, mut bytes: Vec<u8>| {
        bytes[..4].copy_from_slice(&(n as u32).to_le_bytes());
        bytes
    };
    let files = [
        ("no byte", vec![]),
        ("one byte", vec![1]),
        ("15 bytes", worked[..15].to_vec()),
        ("sizes that say one event", said(1, worked[..16].to_vec())),
        ("no event and a byte", said(0, worked[..17].to_vec())),
        ("a byte too few", worked[..worked.len() - 1].to_vec()),
        ("a byte too many", [&worked[..], &[0]].concat()),
        ("an event too few", said(16, worked.clone())),
        ("an event too many", said(14, worked.clone())),
        (
            "as many events as 32 bits say",
            said(u32::MAX as usize, worked.clone()),
        ),
        ("3,801 events", said(EVENTS + 1, more(17))),
        ("3,800 events and a byte", more(1)),
        (
            "3,800 events in 200,000 bytes",
            more(200_000 - longest.len()),
        ),
        (
            "11,764 events",
            said(11_764, more(length(11_764) - longest.len())),
        ),
    ];
    files.map(|(name, bytes)| Input::new(name, bytes)).into()
}

/// The example of 3,800 events, which a read accepts.
fn longest() -> Vec<u8> {
    let [.., (_, longest)] = examples();
    longest
}

/// The longest file and one that is too long, through a pipe.
fn in_pieces() -> [Input; 2] {
    let too_long = [&longest()[..], &[0]].concat();
    [
        ("3,800 events in pieces", longest()),
        ("3,800 events and a byte in pieces", too_long),
    ]
    .map(|(name, bytes)| Input {
        in_pieces: true,
        ..Input::new(name, bytes)
    })
}
