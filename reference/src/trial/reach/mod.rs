//! What generated files reach: which refusals, alone and two at once, and
//! which turns of expiry. A turn is often shown by settling the same book in
//! another way and seeing a difference.

mod failing;
pub mod limits;
mod margins;
mod outside;
mod passes;
pub mod refused;
pub mod removed;
#[cfg(test)]
mod tests;
pub mod turns;
pub mod view;

use crate::reading::calls::REGISTER;
use crate::reading::file::whole::{self, Accepted};
use crate::reading::refusal::Refusal;
use crate::trial::generate::Kind;
use limits::LIMITS;
use refused::{NUMBERS, TWO_AT_ONCE, also_holding};
use removed::REMOVED;
use std::collections::BTreeMap;
use std::fmt;
use turns::{TURNS, Turn};
use view::View;

/// What a run of generated files reached.
#[derive(Clone, Debug, Default)]
pub struct Reach {
    pub files: u64,
    pub by_kind: [[u64; 2]; 4],
    pub accepted: u64,
    pub refused: BTreeMap<u8, u64>,
    pub two_at_once: BTreeMap<(u8, u8), u64>,
    pub turns: BTreeMap<&'static str, u64>,
    pub lines: u64,
    pub removed: u64,
    pub most_lines: usize,
    pub most_pairs: usize,
    pub bytes: u64,
}

impl Reach {
    /// Takes a file into account.
    pub fn add(&mut self, kind: Kind, file: &[u8]) {
        self.files += 1;
        self.bytes += file.len() as u64;
        let run = whole::run(file, REGISTER, 128);
        self.by_kind[kind as usize][usize::from(run.is_err())] += 1;
        match run {
            Ok(accepted) => self.add_accepted(file, accepted),
            Err((refusal, place)) => self.add_refused(file, refusal, place),
        }
    }

    fn add_accepted(&mut self, file: &[u8], accepted: Accepted) {
        let view = View::new(file, accepted);
        self.accepted += 1;
        let lines = view.settlement.lines().count();
        self.lines += lines as u64;
        self.removed += view.removal.removed() as u64;
        self.most_lines = self.most_lines.max(lines);
        self.most_pairs = self.most_pairs.max(view.settlement.pairs());
        for (name, taken) in turns() {
            *self.turns.entry(name).or_default() += u64::from(taken(&view));
        }
    }

    fn add_refused(&mut self, file: &[u8], refusal: Refusal, place: usize) {
        let first = refusal.number();
        *self.refused.entry(first).or_default() += 1;
        let others = also_holding(file, refusal, place)
            .into_iter()
            .map(Refusal::number);
        for other in others.filter(|&other| other != first) {
            *self.two_at_once.entry((first, other)).or_default() += 1;
        }
    }

    /// What should be reached and was not.
    pub fn missing(&self) -> Vec<String> {
        let refused = |number: &&u8| !self.refused.contains_key(*number);
        let both = |two: &&(u8, u8)| !self.two_at_once.contains_key(*two);
        let turn = |turn: &&Turn| self.turns.get(turn.0).is_none_or(|&files| files == 0);
        let numbers = NUMBERS
            .iter()
            .filter(refused)
            .map(|number| format!("refused {number}"));
        let pairs = TWO_AT_ONCE
            .iter()
            .filter(both)
            .map(|(a, b)| format!("{a} before {b}"));
        let turns = turns().filter(turn).map(|turn| turn.0.to_string());
        numbers.chain(pairs).chain(turns).collect()
    }
}

fn turns() -> impl Iterator<Item = &'static Turn> {
    TURNS.iter().chain(REMOVED).chain(LIMITS)
}

impl fmt::Display for Reach {
    fn fmt(&self, f: &mut fmt::Formatter<'_>) -> fmt::Result {
        writeln!(f, "files {}, bytes {}", self.files, self.bytes)?;
        for (kind, [accepted, refused]) in ["small", "medium", "limits", "damaged"]
            .iter()
            .zip(self.by_kind)
        {
            writeln!(f, "  {kind}: {accepted} accepted, {refused} refused")?;
        }
        writeln!(f, "accepted {}", self.accepted)?;
        writeln!(
            f,
            "  lines {}, most in one {}, most pairs {}, lines removed {}",
            self.lines, self.most_lines, self.most_pairs, self.removed
        )?;
        for number in NUMBERS {
            writeln!(
                f,
                "refused {number}: {}",
                self.refused.get(number).unwrap_or(&0)
            )?;
        }
        writeln!(f, "two at once, the first answered:")?;
        let times = |two| self.two_at_once.get(two).unwrap_or(&0);
        for row in TWO_AT_ONCE.chunks(6) {
            let row: Vec<String> = row
                .iter()
                .map(|two| format!("{} before {}: {}", two.0, two.1, times(two)))
                .collect();
            writeln!(f, "  {}", row.join(", "))?;
        }
        writeln!(f, "accepted files with:")?;
        for (name, _) in turns() {
            writeln!(f, "  {name}: {}", self.turns.get(name).unwrap_or(&0))?;
        }
        match self.missing().as_slice() {
            [] => writeln!(
                f,
                "every refusal a file can reach and every turn of expiry was reached"
            ),
            missing => writeln!(f, "not reached: {}", missing.join("; ")),
        }
    }
}
