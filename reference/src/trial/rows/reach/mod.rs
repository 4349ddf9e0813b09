//! What generated rows reach, asked of each row itself and not of the generator.

mod accepted;
mod forms;
mod refused;
mod view;

use accepted::ACCEPTED;
use forms::{BAD, JUST_GOOD};
use refused::REFUSED;
use std::collections::BTreeMap;
use std::fmt;
use view::{Turn, View};

/// What should be reached, by group.
const GROUPS: [(&str, &[Turn]); 4] = [
    ("accepted", ACCEPTED),
    (
        "refused, for one condition alone or for both numbers",
        REFUSED,
    ),
    ("bad rows, good but for this", BAD),
    ("good rows, at the edge of it", JUST_GOOD),
];

/// What a run of generated rows reached.
#[derive(Clone, Debug, Default)]
pub struct Reach {
    rows: u64,
    bytes: usize,
    accepted: u64,
    refused: BTreeMap<u8, u64>,
    bad: u64,
    turns: BTreeMap<&'static str, u64>,
}

impl Reach {
    /// What these rows reach.
    pub fn of(rows: &[Vec<u8>]) -> Reach {
        let mut reach = Reach::default();
        for row in rows {
            reach.add(row);
        }
        reach
    }

    fn add(&mut self, row: &[u8]) {
        let view = View::new(row);
        self.rows += 1;
        self.bytes += row.len();
        match view.answer {
            Some(Ok(_)) => self.accepted += 1,
            Some(Err(refusal)) => *self.refused.entry(refusal.number()).or_default() += 1,
            None => self.bad += 1,
        }
        for (name, taken) in turns() {
            *self.turns.entry(name).or_default() += u64::from(taken(&view));
        }
    }

    /// What should be reached and was not.
    pub fn missing(&self) -> Vec<&'static str> {
        turns()
            .map(|(name, _)| *name)
            .filter(|name| self.times(name) == 0)
            .collect()
    }

    fn times(&self, name: &str) -> u64 {
        *self.turns.get(name).unwrap_or(&0)
    }
}

fn turns() -> impl Iterator<Item = &'static Turn> {
    GROUPS.iter().flat_map(|(_, turns)| turns.iter())
}

impl fmt::Display for Reach {
    fn fmt(&self, f: &mut fmt::Formatter<'_>) -> fmt::Result {
        write!(f, "rows {}, bytes {}: ", self.rows, self.bytes)?;
        write!(f, "accepted {}, ", self.accepted)?;
        for (number, rows) in &self.refused {
            write!(f, "refused {number} {rows}, ")?;
        }
        writeln!(f, "bad {}", self.bad)?;
        for (group, turns) in GROUPS {
            writeln!(f, "{group}:")?;
            for some in turns.chunks(4) {
                let times = |(name, _): &Turn| format!("{name}: {}", self.times(name));
                let some: Vec<String> = some.iter().map(times).collect();
                writeln!(f, "  {}", some.join("; "))?;
            }
        }
        match self.missing().as_slice() {
            [] => writeln!(f, "everything was reached"),
            missing => writeln!(f, "not reached: {}", missing.join("; ")),
        }
    }
}
