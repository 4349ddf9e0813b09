//! A row as the reading sees it.

use crate::reading::calendar::{Day, days};
use crate::reading::last_day::{Answer, date, last_day};
use crate::reading::rows::numbers;

/// What a row can reach: its name and whether a row does.
pub(super) type Turn = (&'static str, fn(&View) -> bool);

/// A row, its numbers and its answer, if it is a good row.
pub(super) struct View<'a> {
    pub row: &'a [u8],
    pub year: u32,
    pub month: u32,
    pub closed: Vec<u32>,
    pub answer: Option<Answer>,
    /// The days from the 10th to the answer, both included, of an accepted row.
    pub walk: Vec<Day>,
}

impl View<'_> {
    pub fn new(row: &[u8]) -> View<'_> {
        let good = numbers(row);
        let answer = good.as_ref().map(|n| last_day(n[0], n[1], &n[2..]));
        let mut numbers = good.unwrap_or(vec![0, 0]);
        let closed = numbers.split_off(2);
        let (year, month) = (numbers[0], numbers[1]);
        let walk = match answer {
            Some(Ok(answer)) => days()
                .skip_while(|day| (day.year, day.month, day.day) < (year, month, 10))
                .take_while(|day| date(day) <= answer)
                .collect(),
            _ => vec![],
        };
        View {
            row,
            year,
            month,
            closed,
            answer,
            walk,
        }
    }

    /// Whether the row is refused with the number.
    pub fn refused(&self, number: u8) -> bool {
        let refusal = self.answer.and_then(Result::err);
        refusal.is_some_and(|refusal| refusal.number() == number)
    }

    pub fn is_closed(&self, day: &Day) -> bool {
        self.closed.contains(&date(day))
    }

    /// Whether the row is accepted and this holds of the 10th and of the answer.
    pub fn ends(&self, holds: impl Fn(&Day, &Day) -> bool) -> bool {
        match self.walk.as_slice() {
            [] => false,
            [only] => holds(only, only),
            [tenth, .., answer] => holds(tenth, answer),
        }
    }

    /// Whether this holds of a closed date, of the 10th and of the answer of an
    /// accepted row, all as numbers.
    pub fn any_closed(&self, holds: impl Fn(u32, u32, u32) -> bool) -> bool {
        self.ends(|tenth, answer| {
            let (tenth, answer) = (date(tenth), date(answer));
            self.closed.iter().any(|&d| holds(d, tenth, answer))
        })
    }
}
