//! The last trading day (document 02, e).

use crate::reading::calendar::{Day, days};
use crate::reading::refusal::{Refusal, first, holding};

/// A date or a refusal.
pub type Answer = Result<u32, Refusal>;

/// "up to 64 closed dates".
pub const CLOSED: usize = 64;

/// "year, month, day as one number, 20210510 for 10 May 2021".
pub fn date(day: &Day) -> u32 {
    10_000 * day.year + 100 * day.month + day.day
}

/// "answer the first date on or after the 10th that is neither Saturday, Sunday
/// nor closed. The answer may lie in a later month or in 2051."
pub fn last_day(year: u32, month: u32, closed: &[u32]) -> Answer {
    first(faults(year, month, closed))?;
    let tenth = (year, month, 10);
    let trading = |day: &Day| day.weekday < 6 && !closed.contains(&date(day));
    let last = days()
        .skip_while(|day| (day.year, day.month, day.day) < tenth)
        .find(trading);
    Ok(date(&last.expect("the days have no end")))
}

/// "Turned away, in this order: 30 year outside 2021 to 2050 or month outside 1
/// to 12; 31 more than 64 dates, a date outside 2021 to 2051 or not in the
/// Gregorian calendar, or dates not strictly ascending."
pub fn faults(year: u32, month: u32, closed: &[u32]) -> Vec<Refusal> {
    let known = dates();
    let year_or_month = !(2021..=2050).contains(&year) || !(1..=12).contains(&month);
    let closed_dates = closed.len() > CLOSED
        || closed.iter().any(|date| !known.contains(date))
        || !closed.is_sorted_by(|earlier, later| earlier < later);
    holding([
        (year_or_month, Refusal::YearOrMonth),
        (closed_dates, Refusal::ClosedDates),
    ])
}

/// The dates of the Gregorian calendar from 2021 to 2051.
fn dates() -> Vec<u32> {
    days()
        .skip_while(|day| day.year < 2021)
        .take_while(|day| day.year <= 2051)
        .map(|day| date(&day))
        .collect()
}
