//! What cases for the program `failures` reach, asked of each case itself.

use super::Case;
use super::turns::{GROUPS, Turn};
use super::view::View;
use std::collections::BTreeMap;
use std::fmt;

/// What a run of cases reached.
#[derive(Clone, Debug, Default)]
pub struct Reach {
    cases: u64,
    counted: u64,
    patterns: u64,
    /// By group and name.
    turns: BTreeMap<(&'static str, &'static str), u64>,
}

impl Reach {
    /// A case, and what is to be printed for it.
    pub fn add(&mut self, case: &Case, row: &str) {
        let view = View::new(case, row);
        self.cases += 1;
        self.counted += u64::from(view.is_counted());
        self.patterns += u64::from(view.patterns());
        for (group, turns) in GROUPS {
            for (name, _) in turns.iter().filter(|(_, taken)| taken(&view)) {
                *self.turns.entry((group, name)).or_default() += 1;
            }
        }
    }

    /// What should be reached and was not.
    pub fn missing(&self) -> Vec<String> {
        let mut missing = Vec::new();
        for (group, turns) in GROUPS {
            let names = turns.iter().map(|(name, _)| *name);
            let names = names.filter(|name| self.times(group, name) == 0);
            missing.extend(names.map(|name| format!("{group}: {name}")));
        }
        missing
    }

    fn times(&self, group: &'static str, name: &'static str) -> u64 {
        *self.turns.get(&(group, name)).unwrap_or(&0)
    }
}

impl fmt::Display for Reach {
    fn fmt(&self, f: &mut fmt::Formatter<'_>) -> fmt::Result {
        let (cases, counted, patterns) = (self.cases, self.counted, self.patterns);
        writeln!(
            f,
            "cases {cases}, {counted} with counts, over {patterns} patterns"
        )?;
        for (group, turns) in GROUPS {
            writeln!(f, "{group}:")?;
            for some in turns.chunks(4) {
                let turn = |(name, _): &Turn| format!("{name}: {}", self.times(group, name));
                let some: Vec<String> = some.iter().map(turn).collect();
                writeln!(f, "  {}", some.join("; "))?;
            }
        }
        match self.missing().as_slice() {
            [] => writeln!(f, "everything was reached"),
            missing => writeln!(f, "not reached: {}", missing.join("; ")),
        }
    }
}
