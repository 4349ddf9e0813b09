//! What files for the program `columns` reach, asked of each file itself.

use crate::reading::file::event::layout;
use crate::reading::file::whole;
use crate::reading::file::{EVENTS, SIZES, events_by_length, length};
use std::fmt;

/// What a file can reach: its name and whether a file does.
type Turn = (&'static str, fn(&View) -> bool);

const ACCEPTED: &[Turn] = &[
    ("accepted", |v| v.n.is_some()),
    ("no event", |v| v.n == Some(0)),
    ("one event", |v| v.n == Some(1)),
    ("16 events", |v| v.n == Some(16)),
    ("17 events", |v| v.n == Some(17)),
    ("3,799 events", |v| v.n == Some(EVENTS - 1)),
    ("3,800 events", |v| v.n == Some(EVENTS)),
    ("sizes that say n", |v| v.n.is_some() && v.said() == v.n),
    ("sizes that say another n", |v| {
        v.n.is_some() && v.said() != v.n
    }),
    ("a kind that no event has", |v| v.has_unknown_kind()),
    ("a file that a read accepts", |v| {
        whole::run(v.file, usize::MAX, usize::MAX).is_ok()
    }),
];

const REFUSED: &[Turn] = &[
    ("refused", |v| v.n.is_none()),
    ("no byte", |v| v.file.is_empty()),
    ("15 bytes", |v| v.file.len() == SIZES - 1),
    ("one byte too few", |v| v.beside(1)),
    ("one byte too many", |v| v.beside(-1)),
    ("one byte more than 3,800 events", |v| {
        v.file.len() == length(EVENTS) + 1
    }),
    ("3,801 events", |v| v.file.len() == length(EVENTS + 1)),
    ("100,000 bytes or more", |v| v.file.len() >= 100_000),
    ("sizes that say an n up to 3,800", |v| {
        v.n.is_none() && v.said().is_some_and(|n| n <= EVENTS)
    }),
];

/// A file, and n where its length is fit.
struct View<'a> {
    file: &'a [u8],
    n: Option<usize>,
}

impl View<'_> {
    fn new(file: &[u8]) -> View<'_> {
        let n = events_by_length(file).ok();
        View { file, n }
    }

    /// The n that the first four bytes say.
    fn said(&self) -> Option<usize> {
        let first = self.file.first_chunk();
        first.map(|bytes| u32::from_le_bytes(*bytes) as usize)
    }

    fn has_unknown_kind(&self) -> bool {
        let kinds = |n| &self.file[SIZES..][..n];
        let unknown = |&kind: &u8| layout(kind).is_none();
        self.n.is_some_and(|n| kinds(n).iter().any(unknown))
    }

    /// With so many bytes more the length of a refused file would be fit.
    fn beside(&self, more: isize) -> bool {
        let wanted = self.file.len().checked_add_signed(more);
        self.n.is_none() && (0..=EVENTS).any(|n| Some(length(n)) == wanted)
    }
}

/// What a run of files reached: how many reach each turn.
#[derive(Clone, Debug, Default)]
pub struct Reach {
    files: u64,
    bytes: usize,
    accepted: [u64; ACCEPTED.len()],
    refused: [u64; REFUSED.len()],
}

impl Reach {
    pub fn add(&mut self, file: &[u8]) {
        let view = View::new(file);
        self.files += 1;
        self.bytes += file.len();
        let accepted = self.accepted.iter_mut().zip(ACCEPTED);
        for (times, (_, reaches)) in accepted.chain(self.refused.iter_mut().zip(REFUSED)) {
            *times += u64::from(reaches(&view));
        }
    }

    /// What should be reached and was not.
    pub fn missing(&self) -> Vec<&'static str> {
        let turns = self.turns();
        let missing = turns.filter(|&(_, times)| times == 0);
        missing.map(|(name, _)| name).collect()
    }

    /// The name of each turn and how many files reach it.
    fn turns(&self) -> impl Iterator<Item = (&'static str, u64)> {
        let names = ACCEPTED.iter().chain(REFUSED).map(|(name, _)| *name);
        let times = self.accepted.iter().chain(&self.refused);
        names.zip(times.copied())
    }
}

impl fmt::Display for Reach {
    fn fmt(&self, f: &mut fmt::Formatter<'_>) -> fmt::Result {
        writeln!(f, "files {}, bytes {}", self.files, self.bytes)?;
        let turns = self.turns().map(|(name, times)| format!("{name}: {times}"));
        let turns: Vec<String> = turns.collect();
        for group in [&turns[..ACCEPTED.len()], &turns[ACCEPTED.len()..]] {
            writeln!(f, "{}", group[0])?;
            for some in group[1..].chunks(4) {
                writeln!(f, "  {}", some.join("; "))?;
            }
        }
        match self.missing().as_slice() {
            [] => writeln!(f, "everything was reached"),
            missing => writeln!(f, "not reached: {}", missing.join("; ")),
        }
    }
}
