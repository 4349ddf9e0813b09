//! What files for the program `calls` reach, asked of each file itself.

use super::turns::{GROUPS, Turn};
use super::view::View;
use std::collections::BTreeMap;
use std::fmt;

/// The numbers that turn a file away.
const AWAY: [u8; 4] = [2, 3, 4, 25];
/// The numbers of events. A list's book is never broken (1) and its lists are
/// never short (17, 23, 24); the end of a file is not judged (27).
const NUMBERS: [u8; 18] = [
    5, 6, 7, 8, 9, 10, 11, 12, 13, 14, 15, 16, 18, 19, 20, 21, 22, 26,
];

/// What a run of files reached.
#[derive(Clone, Debug, Default)]
pub struct Reach {
    files: u64,
    bytes: usize,
    events: usize,
    refused: usize,
    away: BTreeMap<u8, u64>,
    /// Files with a number, and files with that refused event and no other.
    with: BTreeMap<u8, u64>,
    alone: BTreeMap<u8, u64>,
    turns: BTreeMap<&'static str, u64>,
}

impl Reach {
    pub fn add(&mut self, file: &[u8]) {
        let view = View::new(file);
        self.files += 1;
        self.bytes += file.len();
        self.events += view.steps.len();
        if let Some(number) = view.away {
            *self.away.entry(number).or_default() += 1;
        }
        let numbers = view.steps.iter().map(|step| step.number);
        let refused: Vec<u8> = numbers.filter(|&number| number != 0).collect();
        self.refused += refused.len();
        for number in NUMBERS {
            *self.with.entry(number).or_default() += u64::from(refused.contains(&number));
            *self.alone.entry(number).or_default() += u64::from(refused == [number]);
        }
        for (name, taken) in turns() {
            *self.turns.entry(name).or_default() += u64::from(taken(&view));
        }
    }

    /// What should be reached and was not.
    pub fn missing(&self) -> Vec<String> {
        let absent = |files: &BTreeMap<u8, u64>, number: &u8| times(files, number) == 0;
        let away = AWAY.iter().filter(|&n| absent(&self.away, n));
        let alone = NUMBERS.iter().filter(|&n| absent(&self.alone, n));
        let turns = turns().filter(|(name, _)| times(&self.turns, name) == 0);
        away.map(|number| format!("refused {number}"))
            .chain(alone.map(|number| format!("{number} alone")))
            .chain(turns.map(|(name, _)| name.to_string()))
            .collect()
    }
}

fn turns() -> impl Iterator<Item = &'static Turn> {
    GROUPS.iter().flat_map(|(_, turns)| turns.iter())
}

fn times<K: Ord>(files: &BTreeMap<K, u64>, key: &K) -> u64 {
    *files.get(key).unwrap_or(&0)
}

impl fmt::Display for Reach {
    fn fmt(&self, f: &mut fmt::Formatter<'_>) -> fmt::Result {
        write!(f, "files {}, bytes {}, ", self.files, self.bytes)?;
        writeln!(f, "events {}, {} refused", self.events, self.refused)?;
        let away = AWAY.map(|n| format!("{n}: {}", times(&self.away, &n)));
        writeln!(f, "files turned away with {}", away.join(", "))?;
        writeln!(f, "files with a refused event, and with no other:")?;
        let number = |n: &u8| format!("{n}: {}, {}", times(&self.with, n), times(&self.alone, n));
        for some in NUMBERS.chunks(6) {
            let some: Vec<String> = some.iter().map(number).collect();
            writeln!(f, "  {}", some.join("; "))?;
        }
        for (group, turns) in GROUPS {
            writeln!(f, "{group}:")?;
            for some in turns.chunks(3) {
                let turn = |(name, _): &Turn| format!("{name}: {}", times(&self.turns, name));
                let some: Vec<String> = some.iter().map(turn).collect();
                writeln!(f, "  {}", some.join("; "))?;
            }
        }
        match self.missing().as_slice() {
            [] => writeln!(f, "everything was reached"),
            missing => writeln!(f, "not reached: {}", missing.join("; ")),
        }
    }
}
