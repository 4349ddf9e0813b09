//! The Gregorian calendar, walked day by day, and the weekdays of the tenths
//! (document 02, d).

/// 1 January 1970 was a Thursday.
const FIRST: Day = Day {
    year: 1970,
    month: 1,
    day: 1,
    weekday: 4,
};

/// A day with its weekday, Monday 1 to Sunday 7.
#[derive(Clone, Copy, Debug, PartialEq, Eq)]
pub struct Day {
    pub year: u32,
    pub month: u32,
    pub day: u32,
    pub weekday: u32,
}

/// Every fourth year is a leap year, but for the hundredth that is not the
/// four-hundredth.
pub fn leap(year: u32) -> bool {
    year.is_multiple_of(if year.is_multiple_of(100) { 400 } else { 4 })
}

/// "Days per month stand in two rows, one for leap years."
pub fn days_of_month(year: u32, month: u32) -> u32 {
    match month {
        4 | 6 | 9 | 11 => 30,
        2 if leap(year) => 29,
        2 => 28,
        _ => 31,
    }
}

/// The days from 1 January 1970 on, one after the other.
pub fn days() -> impl Iterator<Item = Day> {
    std::iter::successors(Some(FIRST), |today| Some(tomorrow(*today)))
}

fn tomorrow(today: Day) -> Day {
    let weekday = today.weekday % 7 + 1;
    let Day {
        year, month, day, ..
    } = today;
    let (year, month, day) = if day < days_of_month(year, month) {
        (year, month, day + 1)
    } else if month < 12 {
        (year, month + 1, 1)
    } else {
        (year + 1, 1, 1)
    };
    Day {
        year,
        month,
        day,
        weekday,
    }
}

/// "the weekday of the 10th of every month from January 2021 to December 2050",
/// "years ascending, a year's twelve numbers on a row, parted by one space".
pub fn tenths() -> String {
    days()
        .skip_while(|day| day.year < 2021)
        .take_while(|day| day.year <= 2050)
        .filter(|day| day.day == 10)
        .map(|day| {
            let end = if day.month == 12 { '\n' } else { ' ' };
            format!("{}{end}", day.weekday)
        })
        .collect()
}
