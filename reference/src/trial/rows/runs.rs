//! Accepted rows, most with many closed dates near the 10th.

use super::draft::{Draft, any_date, from_tenth, month, trading};
use crate::reading::calendar::{Day, days};
use crate::reading::last_day::{CLOSED, date};
use crate::trial::random::Random;

/// Closed trading days in a row or scattered days, with others beside them.
pub(super) fn run(random: &mut Random) -> Draft {
    let month = month(random);
    let mut closed = match random.below(10) {
        0 => vec![],
        1..7 => in_a_row(random, month),
        _ => scattered(random, month),
    };
    if random.percent(30) {
        closed.extend(before(random, month));
    }
    if random.percent(30) {
        closed.extend(weekends(random, month));
    }
    if random.percent(30) {
        let others = random.below(12);
        closed.extend((0..others).map(|_| any_date(random)));
    }
    Draft::new(random, month, closed)
}

/// Trading days in a row from the 10th on, at times without one or two.
fn in_a_row(random: &mut Random, month: (u32, u32)) -> Vec<u32> {
    let any = random.from_to(4, 64) as usize;
    let short = random.from_to(1, 3) as usize;
    let length = random.pick(&[short, any, any, any, CLOSED]);
    let mut closed: Vec<u32> = trading(month).take(length).map(|day| date(&day)).collect();
    for _ in 0..random.pick(&[0, 0, 0, 1, 2]) {
        if !closed.is_empty() {
            closed.remove(random.below(closed.len()));
        }
    }
    closed
}

/// Many of the days from the 10th on, weekends among them.
fn scattered(random: &mut Random, month: (u32, u32)) -> Vec<u32> {
    let chance = random.pick(&[50, 80, 95]);
    let length = random.from_to(3, 64) as usize;
    from_tenth(month)
        .take(length)
        .filter(|_| random.percent(chance))
        .map(|day| date(&day))
        .collect()
}

/// Some of the 40 days before the 10th, the 9th most often.
fn before(random: &mut Random, (year, month): (u32, u32)) -> Vec<u32> {
    let early = days().take_while(|day| (day.year, day.month, day.day) < (year, month, 10));
    let early: Vec<Day> = early.filter(|day| day.year >= 2021).collect();
    let chance = random.pick(&[5, 15]);
    let last = early.last().copied();
    let some = early.into_iter().rev().take(40);
    some.filter(|day| Some(*day) == last || random.percent(chance))
        .map(|day| date(&day))
        .collect()
}

/// Some Saturdays and Sundays from the 10th on.
fn weekends(random: &mut Random, month: (u32, u32)) -> Vec<u32> {
    let chance = random.pick(&[20, 60]);
    from_tenth(month)
        .take(40)
        .filter(|day| day.weekday > 5 && random.percent(chance))
        .map(|day| date(&day))
        .collect()
}
