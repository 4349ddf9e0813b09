//! Accepted rows that end at a chosen day.

use super::draft::{Draft, any_date, from_tenth, month, trading};
use crate::reading::calendar::{Day, leap};
use crate::reading::last_day::{CLOSED, date};
use crate::trial::random::Random;

/// Twenty-one in a row have every sort.
pub(super) fn edge(random: &mut Random, turn: usize) -> Draft {
    match turn % 21 {
        sort @ 0..7 => full(random, sort as u32 + 1),
        7 => closed_for(random, (2050, 12), CLOSED),
        8 => closed_until(random, (2050, 12), |day| day.year == 2051),
        sort @ (9 | 10) => tenth_on(random, sort as u32 - 3),
        11 => leap_day(random),
        12 => over_february(random, true),
        13 => over_february(random, false),
        14 => december(random),
        15 => month_end(random),
        16 => next_month(random),
        17 => elsewhere(random),
        18 => closed_for(random, (2021, 1), 0),
        19 => closed_for(random, (2050, 12), 0),
        _ => tenth_alone(random),
    }
}

/// The first so many trading days closed.
pub(super) fn closed_for(random: &mut Random, month: (u32, u32), length: usize) -> Draft {
    let closed = trading(month).take(length).map(|day| date(&day));
    Draft::new(random, month, closed)
}

/// The trading days closed until one of which this holds.
fn closed_until(random: &mut Random, month: (u32, u32), open: impl Fn(Day) -> bool) -> Draft {
    let closed = trading(month)
        .take_while(|day| !open(*day))
        .map(|day| date(&day));
    Draft::new(random, month, closed)
}

/// A month of which this holds.
fn month_where(random: &mut Random, holds: impl Fn((u32, u32)) -> bool) -> (u32, u32) {
    loop {
        let month = month(random);
        if holds(month) {
            return month;
        }
    }
}

fn weekday_of_tenth(month: (u32, u32)) -> Option<u32> {
    from_tenth(month).next().map(|day| day.weekday)
}

/// 64 trading days closed in a row, the 10th on the weekday.
fn full(random: &mut Random, weekday: u32) -> Draft {
    let month = month_where(random, |month| weekday_of_tenth(month) == Some(weekday));
    closed_for(random, month, CLOSED)
}

/// The 10th on the weekday and nothing closed near it.
fn tenth_on(random: &mut Random, weekday: u32) -> Draft {
    let month = month_where(random, |month| weekday_of_tenth(month) == Some(weekday));
    let tenth = 10_000 * month.0 + 100 * month.1 + 10;
    let others = random.below(12);
    let others: Vec<u32> = (0..others).map(|_| any_date(random)).collect();
    let far = others.into_iter().filter(|date| date.abs_diff(tenth) > 2);
    Draft::new(random, month, far)
}

/// The 10th closed and no other day, the 11th a trading day.
fn tenth_alone(random: &mut Random) -> Draft {
    let month = month_where(random, |month| weekday_of_tenth(month) < Some(5));
    closed_for(random, month, 1)
}

/// 29 February, where it is a trading day, is the answer.
fn leap_day(random: &mut Random) -> Draft {
    let year = random.pick(&[2024, 2028, 2036, 2040, 2044]);
    let month = random.pick(&[(year, 2), (year, 1), (year - 1, 12)]);
    closed_until(random, month, |day| (day.month, day.day) == (2, 29))
}

/// A run over the end of February, of a leap year or not.
fn over_february(random: &mut Random, leap_year: bool) -> Draft {
    let (year, _) = month_where(random, |(year, _)| leap(year) == leap_year && year > 2021);
    let month = random.pick(&[(year, 2), (year, 1), (year - 1, 12)]);
    closed_until(random, month, |day| day.month == 3)
}

/// A run over the end of a year.
fn december(random: &mut Random) -> Draft {
    let (year, _) = month(random);
    let stop = random.from_to(1, 28);
    closed_until(random, (year, 12), |day| day.year > year && day.day >= stop)
}

/// A run to the last trading day of the month, which is open.
fn month_end(random: &mut Random) -> Draft {
    let month = month(random);
    let last = trading(month).take_while(|day| day.month == month.1).last();
    closed_until(random, month, |day| Some(day) == last)
}

/// A run to the first trading day of the next month, which is open.
fn next_month(random: &mut Random) -> Draft {
    let month = month(random);
    closed_until(random, month, |day| day.month != month.1)
}

/// 64 dates, none of which has an effect.
fn elsewhere(random: &mut Random) -> Draft {
    let month = month(random);
    let answer = trading(month).next().map(|day| date(&day));
    let others: Vec<u32> = (0..80).map(|_| any_date(random)).collect();
    let others = others.into_iter().filter(|date| Some(*date) != answer);
    Draft::new(random, month, others)
}
