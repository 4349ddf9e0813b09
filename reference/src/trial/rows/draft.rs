//! A row before it is bytes, and the days it is made of.

use crate::reading::calendar::{Day, days, days_of_month};
use crate::reading::last_day::{CLOSED, date};
use crate::trial::random::Random;
use std::collections::BTreeSet;

/// Year, month and closed dates, allowed or not.
#[derive(Clone, Debug)]
pub(super) struct Draft {
    pub year: u32,
    pub month: u32,
    pub closed: Vec<u32>,
}

impl Draft {
    /// The closed dates ascending; of more than 64 some are left out.
    pub fn new(
        random: &mut Random,
        (year, month): (u32, u32),
        closed: impl IntoIterator<Item = u32>,
    ) -> Draft {
        let ascending: BTreeSet<u32> = closed.into_iter().collect();
        let mut closed: Vec<u32> = ascending.into_iter().collect();
        while closed.len() > CLOSED {
            closed.remove(random.below(closed.len()));
        }
        Draft {
            year,
            month,
            closed,
        }
    }

    /// Each number as text.
    pub fn words(&self) -> Vec<String> {
        let numbers = [self.year, self.month].into_iter();
        numbers
            .chain(self.closed.iter().copied())
            .map(|number| number.to_string())
            .collect()
    }

    pub fn bytes(&self) -> Vec<u8> {
        self.words().join(" ").into_bytes()
    }

    /// So many bytes: one number is given noughts at its start.
    pub fn padded(&self, random: &mut Random, length: usize) -> Vec<u8> {
        let mut words = self.words();
        let place = random.below(words.len());
        let noughts = "0".repeat(length - self.bytes().len());
        words[place].insert_str(0, &noughts);
        words.join(" ").into_bytes()
    }
}

/// A month from 2021 to 2050, December and the last of all more often.
pub(super) fn month(random: &mut Random) -> (u32, u32) {
    let any = (random.from_to(2021, 2050), random.from_to(1, 12));
    match random.below(20) {
        0 => (2050, 12),
        1 => (2021, 1),
        2 | 3 => (any.0, 12),
        _ => any,
    }
}

/// The days from the 10th of a month on.
pub(super) fn from_tenth((year, month): (u32, u32)) -> impl Iterator<Item = Day> {
    days().skip_while(move |day| (day.year, day.month, day.day) < (year, month, 10))
}

/// The days from the 10th on that are neither Saturday nor Sunday.
pub(super) fn trading(month: (u32, u32)) -> impl Iterator<Item = Day> {
    from_tenth(month).filter(|day| day.weekday < 6)
}

/// Any date from 2021 to 2051.
pub(super) fn any_date(random: &mut Random) -> u32 {
    let (year, month) = (random.from_to(2021, 2051), random.from_to(1, 12));
    let day = random.from_to(1, days_of_month(year, month));
    date(&Day {
        year,
        month,
        day,
        weekday: 0,
    })
}
