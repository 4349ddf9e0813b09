//! What files for the program `label` reach: the digits that their numbers have.

use crate::reading::book::SECTIONS;
use crate::reading::file::whole::{Reading, read};
use crate::reading::label::of_reading;
use crate::reading::listing::Lists;
use std::collections::{BTreeMap, BTreeSet};
use std::fmt;
use std::ops::RangeInclusive;

/// The name of what is reached, and whether a file does.
type Turn = (&'static str, fn(&View) -> bool);
/// Numbers, the digits that are to be reached, and the numbers that a file has.
type Numbers = (&'static str, RangeInclusive<usize>, fn(&View) -> Vec<u64>);

const TURNS: &[Turn] = &[
    ("accepted", |v| v.kept().is_some()),
    ("refused", |v| v.kept().is_none()),
    ("no section", |v| v.kept().is_some() && v.held() == 0),
    ("128 sections", |v| v.held() == SECTIONS),
    ("no line", |v| v.kept() == Some(0)),
    ("375 lines", |v| v.kept() == Some(375)),
    ("a section with lapsed lots", |v| {
        v.lists.lapsed.iter().any(|&lots| lots > 0)
    }),
    ("a sum below 0", |v| v.sums().iter().any(|&sum| sum < 0)),
    ("a sum of 0", |v| v.sums().contains(&0)),
    ("a sum above 0", |v| v.sums().iter().any(|&sum| sum > 0)),
    ("tonnes of as many digits as lots", |v| v.beyond_lots(0)),
    ("tonnes of a digit more", |v| v.beyond_lots(1)),
    ("tonnes of two digits more", |v| v.beyond_lots(2)),
    ("tonnes of three digits more", |v| v.beyond_lots(3)),
];

const NUMBERS: &[Numbers] = &[
    ("lines", 1..=3, |v| {
        v.kept().map(|kept| kept as u64).into_iter().collect()
    }),
    ("elevators", 1..=2, |v| {
        v.lines(|line| v.lists.elevators[line].into())
    }),
    ("lots of a line", 1..=7, |v| v.lines(|line| v.lots(line))),
    ("tonnes of a line", 1..=10, |v| {
        v.lines(|line| v.tonnes(line))
    }),
    ("delivered lots", 1..=7, |v| v.sections(&v.lists.delivered)),
    ("terminated lots", 1..=7, |v| {
        v.sections(&v.lists.terminated)
    }),
    ("lapsed lots", 1..=7, |v| v.sections(&v.lists.lapsed)),
    ("sums below 0", 1..=17, |v| v.sizes(|sum| sum < 0)),
    ("sums above 0", 1..=17, |v| v.sizes(|sum| sum > 0)),
    ("places after a number of one digit", 1..=4, |v| v.place(1)),
    ("places after one of two digits", 1..=4, |v| v.place(2)),
    ("counts", 2..=5, |v| vec![v.count as u64]),
];

fn digits(number: u64) -> usize {
    number.checked_ilog10().map_or(1, |log| log as usize + 1)
}

/// A read of a file, the lists lent to it, and the count.
pub struct View {
    reading: Reading,
    lists: Lists,
    pub count: usize,
}

impl View {
    pub fn new(file: &[u8]) -> View {
        let mut lists = Lists::full();
        let reading = read(file, lists.lend());
        View {
            count: of_reading(&reading, &lists),
            reading,
            lists,
        }
    }

    /// The lines of an accepted file.
    fn kept(&self) -> Option<usize> {
        self.reading.answer.ok().map(|counts| counts.kept)
    }

    fn held(&self) -> usize {
        self.reading.book.sections_held
    }

    fn lines(&self, number: impl Fn(usize) -> u64) -> Vec<u64> {
        (0..self.kept().unwrap_or(0)).map(number).collect()
    }

    fn lots(&self, line: usize) -> u64 {
        self.lists.lots[line].into()
    }

    fn tonnes(&self, line: usize) -> u64 {
        self.lots(line) * u64::from(self.reading.book.lot)
    }

    /// A line's tonnes have so many digits more than its lots.
    fn beyond_lots(&self, more: usize) -> bool {
        let such = |line| digits(self.tonnes(line)) == digits(self.lots(line)) + more;
        (0..self.kept().unwrap_or(0)).any(such)
    }

    fn sections(&self, lots: &[u32]) -> Vec<u64> {
        lots[..self.held()]
            .iter()
            .map(|&lots| lots.into())
            .collect()
    }

    fn sums(&self) -> &[i64] {
        &self.lists.margin_sums[..self.held()]
    }

    fn sizes(&self, such: fn(i64) -> bool) -> Vec<u64> {
        let sums = self.sums().iter().filter(|&&sum| such(sum));
        sums.map(|sum| sum.unsigned_abs()).collect()
    }

    /// Where the file is refused with a number of so many digits.
    fn place(&self, number: usize) -> Vec<u64> {
        let such = |refusal: u8| digits(refusal.into()) == number;
        match self.reading.answer {
            Err(refusal) if such(refusal.number()) => vec![self.reading.place as u64],
            _ => vec![],
        }
    }
}

/// What a run of files reached: how many reach each turn, and how many have numbers
/// of so many digits.
#[derive(Clone, Debug, Default)]
pub struct Reach {
    files: u64,
    counted: usize,
    turns: BTreeMap<&'static str, u64>,
    digits: BTreeMap<(&'static str, usize), u64>,
}

impl Reach {
    pub fn add(&mut self, view: &View) {
        self.files += 1;
        self.counted += view.count;
        for (name, _) in TURNS.iter().filter(|(_, taken)| taken(view)) {
            *self.turns.entry(name).or_default() += 1;
        }
        for (name, _, numbers) in NUMBERS {
            let all: BTreeSet<usize> = numbers(view).into_iter().map(digits).collect();
            for digits in all {
                *self.digits.entry((name, digits)).or_default() += 1;
            }
        }
    }

    /// What should be reached and was not.
    pub fn missing(&self) -> Vec<String> {
        let turns = TURNS.iter().map(|(name, _)| *name);
        let turns = turns.filter(|name| !self.turns.contains_key(name));
        let numbers = NUMBERS.iter().flat_map(|(name, wanted, _)| {
            let wanted = wanted.clone().map(move |digits| (*name, digits));
            wanted.filter(|number| !self.digits.contains_key(number))
        });
        let numbers = numbers.map(|(name, digits)| match digits {
            1 => format!("{name} with 1 digit"),
            _ => format!("{name} with {digits} digits"),
        });
        turns.map(str::to_string).chain(numbers).collect()
    }
}

impl fmt::Display for Reach {
    fn fmt(&self, f: &mut fmt::Formatter<'_>) -> fmt::Result {
        writeln!(f, "files {}, bytes counted {}", self.files, self.counted)?;
        let turn = |(name, _): &Turn| format!("{name}: {}", self.turns.get(name).unwrap_or(&0));
        for some in TURNS.chunks(5) {
            let some: Vec<String> = some.iter().map(turn).collect();
            writeln!(f, "  {}", some.join("; "))?;
        }
        writeln!(f, "files by the digits of their")?;
        for (name, wanted, _) in NUMBERS {
            let files = |digits| self.digits.get(&(*name, digits)).unwrap_or(&0);
            let each = wanted
                .clone()
                .map(|digits| format!("{digits}: {}", files(digits)));
            writeln!(f, "  {name}: {}", each.collect::<Vec<_>>().join(", "))?;
        }
        match self.missing().as_slice() {
            [] => writeln!(f, "everything was reached"),
            missing => writeln!(f, "not reached: {}", missing.join("; ")),
        }
    }
}
