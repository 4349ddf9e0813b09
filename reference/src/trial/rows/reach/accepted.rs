//! What accepted rows reach.

use super::view::{Turn, View};
use crate::reading::calendar::{Day, leap};
use crate::reading::last_day::CLOSED;

pub(super) const ACCEPTED: &[Turn] = &[
    ("the 10th a Saturday, nothing closed near it", |v| {
        v.free_until_monday(6)
    }),
    ("the 10th a Sunday, nothing closed near it", |v| {
        v.free_until_monday(7)
    }),
    ("the 10th a trading day and open", |v| v.walk.len() == 1),
    ("the 10th closed", |v| {
        v.ends(|tenth, _| tenth.weekday < 6 && v.is_closed(tenth))
    }),
    ("the 10th alone closed", |v| {
        v.ends(|tenth, answer| answer.day == 11 && tenth.weekday < 5 && v.closed.len() == 1)
    }),
    ("a run into the next month", |v| {
        v.ends(|tenth, answer| answer.month == tenth.month + 1)
    }),
    ("a run into the third month after", |v| {
        v.ends(|tenth, answer| (tenth.month + 2) % 12 + 1 == answer.month)
    }),
    ("a run up to the first of a month", |v| {
        v.ends(|_, answer| answer.day == 1)
    }),
    ("a run into the next year", |v| {
        v.ends(|tenth, answer| answer.year == tenth.year + 1)
    }),
    ("a run from December 2050 into 2051", |v| {
        v.ends(|_, answer| answer.year == 2051)
    }),
    ("64 closed from a Monday the 10th", |v| v.full(1)),
    ("64 closed from a Tuesday the 10th", |v| v.full(2)),
    ("64 closed from a Wednesday the 10th", |v| v.full(3)),
    ("64 closed from a Thursday the 10th", |v| v.full(4)),
    ("64 closed from a Friday the 10th", |v| v.full(5)),
    ("64 closed from a Saturday the 10th", |v| v.full(6)),
    ("64 closed from a Sunday the 10th", |v| v.full(7)),
    ("64 closed from December 2050", |v| {
        v.ends(|tenth, _| (tenth.year, tenth.month) == (2050, 12)) && v.trading() > CLOSED
    }),
    ("a run up to 29 February", |v| {
        v.ends(|_, answer| (answer.month, answer.day) == (2, 29))
    }),
    ("a run over 29 February", |v| {
        v.over(|day| (day.month, day.day) == (2, 29))
    }),
    ("a run over 28 February of a common year", |v| {
        v.over(|day| (day.month, day.day) == (2, 28) && !leap(day.year))
    }),
    ("a closed Saturday or Sunday on the way", |v| {
        v.walk.iter().any(|day| day.weekday > 5 && v.is_closed(day))
    }),
    ("closed before the answer and soon after it", |v| {
        v.trading() > 1 && v.any_closed(|date, _, answer| date > answer && date < answer + 5)
    }),
    ("the 9th closed", |v| {
        v.any_closed(|date, tenth, _| date + 1 == tenth)
    }),
    ("closed in an earlier year", |v| {
        v.any_closed(|date, tenth, _| date / 10_000 < tenth / 10_000)
    }),
    ("closed in a later year than the answer", |v| {
        v.any_closed(|date, _, answer| date / 10_000 > answer / 10_000)
    }),
    ("64 dates without effect", |v| {
        let effect = v.any_closed(|date, tenth, answer| (tenth..=answer).contains(&date));
        v.closed.len() == CLOSED && !v.walk.is_empty() && !effect
    }),
    ("January 2021", |v| {
        v.ends(|tenth, _| (tenth.year, tenth.month) == (2021, 1))
    }),
    ("December 2050, nothing closed", |v| {
        v.ends(|tenth, _| (tenth.year, tenth.month) == (2050, 12)) && v.closed.is_empty()
    }),
];

impl View<'_> {
    /// The 10th on the weekday, the Monday after it the answer and nothing
    /// closed between.
    fn free_until_monday(&self, weekday: u32) -> bool {
        let free = self.walk.iter().all(|day| !self.is_closed(day));
        self.ends(|tenth, answer| tenth.weekday == weekday && answer.weekday == 1) && free
    }

    /// This holds of a day on the way before the answer.
    fn over(&self, holds: fn(&Day) -> bool) -> bool {
        self.walk.iter().rev().skip(1).any(holds)
    }

    /// The trading days on the way, the answer among them.
    fn trading(&self) -> usize {
        self.walk.iter().filter(|day| day.weekday < 6).count()
    }

    /// The 65th trading day is the answer, the 10th on the weekday.
    fn full(&self, weekday: u32) -> bool {
        self.ends(|tenth, _| tenth.weekday == weekday) && self.trading() == CLOSED + 1
    }
}
