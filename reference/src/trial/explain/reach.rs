//! What files for the program `explain` reach: the kinds of row that they bring,
//! those that are folded, and files at the limits.

use super::kinds::{FOLDED, KINDS, is_of};
use crate::reading::explain::COLUMNS;
use std::collections::BTreeSet;
use std::fmt;

/// The name of what is reached, and whether the rows of a file do.
type Turn = (&'static str, fn(&[&str]) -> bool);

const TURNS: [Turn; 9] = [
    ("three codes in which lots fail", |rows| {
        let codes = rows.iter().filter(|row| is_of("code #, what fails", row));
        codes.count() >= 3
    }),
    ("a tie of three", |rows| {
        let tie = "    tie: @ has # lots too; the lower section code came first";
        let tied = |row: &&str| is_of(tie, row);
        rows.windows(3).any(|w| tied(&w[0]) && tied(&w[2]))
    }),
    ("128 sections", |rows| {
        count(rows, "    @ bought #, sold #: position ~#") == 128
    }),
    ("256 notices", |rows| {
        count(rows, "    notice # of @ at elevator #: # drawn of # lots") == 256
    }),
    ("3,800 events", |rows| count(rows, "3799 expiry") == 1),
    ("375 lines", |rows| {
        count(
            rows,
            "    lines formed: 375; such long sections # + drawn notices # - 1 = 375",
        ) == 1
    }),
    ("hundreds of sessions of 128 sections", |rows| {
        count(rows, "    @ ~# ~# ~# ~# ~#") >= 300 * 128
    }),
    ("a basis of 17 digits", |rows| {
        let wide = |row: &str| {
            let basis = row.split(' ').nth(6);
            basis.is_some_and(|basis| basis.trim_start_matches('-').len() == 17)
        };
        let rows = rows.iter();
        rows.filter(|row| is_of("    @ ~# ~# ~# ~# ~#", row))
            .any(|row| wide(row))
    }),
    ("a refused section of 100 columns", |rows| {
        let section = "# section: section code ?, settlement code #, participant #";
        let wide = |row: &str| row.len() == COLUMNS && is_of(section, row);
        rows.iter().any(|row| wide(row))
    }),
];

fn count(rows: &[&str], kind: &str) -> usize {
    rows.iter().filter(|row| is_of(kind, row)).count()
}

/// What a run of files has not yet reached.
#[derive(Clone, Debug)]
pub struct Reach {
    files: usize,
    rows: usize,
    kinds: BTreeSet<&'static str>,
    folded: BTreeSet<&'static str>,
    turns: BTreeSet<&'static str>,
}

impl Default for Reach {
    fn default() -> Reach {
        Reach {
            files: 0,
            rows: 0,
            kinds: KINDS.lines().collect(),
            folded: FOLDED.into(),
            turns: TURNS.iter().map(|(name, _)| *name).collect(),
        }
    }
}

impl Reach {
    /// The explanation of a file.
    pub fn add(&mut self, text: &[u8]) {
        let text = String::from_utf8_lossy(text);
        let rows: Vec<&str> = text.lines().collect();
        self.files += 1;
        self.rows += rows.len();
        for (i, row) in rows.iter().enumerate() {
            let next = rows.get(i + 1).unwrap_or(&"");
            self.kinds.retain(|kind| match kind.split_once('|') {
                Some((one, other)) => !(is_of(one, row) && is_of(other, next)),
                None => !is_of(kind, row),
            });
            let whole = || format!("{row} {next}");
            self.folded
                .retain(|kind| row.len() + next.len() < COLUMNS || !is_of(kind, &whole()));
        }
        let turns = TURNS.iter().filter(|(_, taken)| taken(&rows));
        for (name, _) in turns {
            self.turns.remove(name);
        }
    }

    /// What should be reached and was not.
    pub fn missing(&self) -> Vec<String> {
        let kinds = self.kinds.iter().map(|kind| format!("{kind:?}"));
        let folded = self.folded.iter().map(|kind| format!("folded {kind:?}"));
        let turns = self.turns.iter().map(|name| name.to_string());
        kinds.chain(folded).chain(turns).collect()
    }
}

impl fmt::Display for Reach {
    fn fmt(&self, f: &mut fmt::Formatter<'_>) -> fmt::Result {
        let all = KINDS.lines().count() + FOLDED.len() + TURNS.len();
        let missing = self.missing();
        let (files, rows, seen) = (self.files, self.rows, all - missing.len());
        writeln!(
            f,
            "files {files}, rows {rows}; {seen} of {all} kinds of row seen"
        )?;
        for missing in &missing {
            writeln!(f, "  not reached: {missing}")?;
        }
        match missing.is_empty() {
            true => writeln!(f, "everything was reached"),
            false => Ok(()),
        }
    }
}
