//! What refused rows reach: each condition alone, and both numbers at once.

use super::view::{Turn, View};
use crate::reading::calendar::{days_of_month, leap};
use crate::reading::last_day::{CLOSED, faults};

/// The conditions of 31, by place in what `wrong` gives.
const TOO_MANY: usize = 0;
const EARLY: usize = 1;
const LATE: usize = 2;
const NO_DATE: usize = 3;
const EQUAL: usize = 4;
const DESCENDING: usize = 5;

pub(super) const REFUSED: &[Turn] = &[
    ("30: year below 2021", |v| v.year_or_month(v.year < 2021)),
    ("30: year above 2050", |v| v.year_or_month(v.year > 2050)),
    ("30: year 2020", |v| v.year_or_month(v.year == 2020)),
    ("30: year 2051", |v| v.year_or_month(v.year == 2051)),
    ("30: month 0", |v| v.year_or_month(v.month == 0)),
    ("30: month 13", |v| v.year_or_month(v.month == 13)),
    ("30: month above 13", |v| v.year_or_month(v.month > 13)),
    ("31: 65 dates", |v| {
        v.alone(TOO_MANY) && v.closed.len() == CLOSED + 1
    }),
    ("31: more than 100 dates", |v| {
        v.alone(TOO_MANY) && v.closed.len() > 100
    }),
    ("31: before 2021", |v| {
        v.alone(EARLY) && !v.closed.contains(&0)
    }),
    ("31: 31 December 2020", |v| {
        v.alone(EARLY) && v.closed.contains(&20_201_231)
    }),
    ("31: the number 0", |v| {
        v.alone(EARLY) && v.closed.contains(&0)
    }),
    ("31: after 2051", |v| v.alone(LATE)),
    ("31: 1 January 2052", |v| {
        v.alone(LATE) && v.closed.contains(&20_520_101)
    }),
    ("31: 29 February of a common year", |v| {
        v.no_date(|_, month, day| (month, day) == (2, 29))
    }),
    ("31: 30 February", |v| {
        v.no_date(|_, month, day| (month, day) == (2, 30))
    }),
    ("31: 30 February of a leap year", |v| {
        v.no_date(|year, month, day| (month, day) == (2, 30) && leap(year))
    }),
    ("31: month 0", |v| {
        v.no_date(|_, month, day| month == 0 && day > 0)
    }),
    ("31: month 13", |v| v.no_date(|_, month, _| month == 13)),
    ("31: day 0", |v| {
        v.no_date(|_, month, day| month > 0 && day == 0)
    }),
    ("31: day 31 of 30", |v| {
        v.no_date(|_, month, day| month > 2 && day == 31)
    }),
    ("31: day 32", |v| v.no_date(|_, _, day| day == 32)),
    ("31: equal dates", |v| v.alone(EQUAL)),
    ("31: equal at the end only", |v| {
        v.alone(EQUAL) && v.at_the_end()
    }),
    ("31: descending dates", |v| v.alone(DESCENDING)),
    ("31: descending at the end only", |v| {
        v.alone(DESCENDING) && v.at_the_end()
    }),
    ("30 and 31 at once", |v| {
        v.answer.is_some() && faults(v.year, v.month, &v.closed).len() == 2
    }),
];

/// Year, month and day of a number.
fn parts(date: u32) -> (u32, u32, u32) {
    (date / 10_000, date / 100 % 100, date % 100)
}

/// Whether a year from 2021 to 2051 has no such month or day.
fn is_no_date(date: u32) -> bool {
    let (year, month, day) = parts(date);
    let month_or_day = !(1..=12).contains(&month) || day < 1 || day > days_of_month(year, month);
    (2021..=2051).contains(&year) && month_or_day
}

impl View<'_> {
    /// 30 alone, and this.
    fn year_or_month(&self, holds: bool) -> bool {
        let years = (2021..=2050).contains(&self.year);
        let months = (1..=12).contains(&self.month);
        self.refused(30) && years != months && self.wrong() == [false; 6] && holds
    }

    /// Which conditions of 31 hold.
    fn wrong(&self) -> [bool; 6] {
        let any = |holds: fn(u32) -> bool| self.closed.iter().any(|&date| holds(date));
        let neighbours = |holds: fn(u32, u32) -> bool| {
            let mut pairs = self.closed.windows(2);
            pairs.any(|pair| holds(pair[0], pair[1]))
        };
        [
            self.closed.len() > CLOSED,
            any(|date| parts(date).0 < 2021),
            any(|date| parts(date).0 > 2051),
            any(is_no_date),
            neighbours(|a, b| a == b),
            neighbours(|a, b| a > b),
        ]
    }

    /// 31, for this condition and no other.
    fn alone(&self, condition: usize) -> bool {
        let mut wanted = [false; 6];
        wanted[condition] = true;
        self.refused(31) && self.wrong() == wanted
    }

    /// 31, for a number alone that is no date, of which this holds.
    fn no_date(&self, holds: fn(u32, u32, u32) -> bool) -> bool {
        let mut bad = self.closed.iter().filter(|&&date| is_no_date(date));
        let of_all = |&date: &u32| {
            let (year, month, day) = parts(date);
            holds(year, month, day)
        };
        self.alone(NO_DATE) && bad.all(of_all)
    }

    /// Without the last date, of three or more, the dates are ascending.
    fn at_the_end(&self) -> bool {
        let but_last = &self.closed[..self.closed.len() - 1];
        but_last.len() > 1 && but_last.is_sorted_by(|a, b| a < b)
    }
}
