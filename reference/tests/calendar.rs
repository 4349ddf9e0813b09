//! The calendar: known weekdays, leap years, and the tenths as the proved
//! program prints them.

use wheat_delivery::reading::calendar::{Day, days, days_of_month, leap, tenths};

fn weekday(year: u32, month: u32, day: u32) -> u32 {
    let wanted = |d: &Day| (d.year, d.month, d.day) == (year, month, day);
    days().find(wanted).unwrap().weekday
}

#[test]
fn weekdays_are_those_that_everybody_knows() {
    assert_eq!(weekday(1970, 1, 1), 4);
    assert_eq!(weekday(2000, 1, 1), 6);
    assert_eq!(weekday(2021, 1, 10), 7);
    assert_eq!(weekday(2024, 2, 29), 4);
}

#[test]
fn the_hundredth_year_is_no_leap_year_but_the_four_hundredth_is() {
    let leaps = [1900, 2000, 2023, 2024, 2100].map(leap);
    assert_eq!(leaps, [false, true, false, true, false]);
    assert_eq!((days_of_month(2023, 2), days_of_month(2024, 2)), (28, 29));
}

#[test]
fn four_hundred_years_have_146_097_days() {
    let cycle = days().take_while(|day| day.year < 2370);
    assert_eq!(cycle.count(), 146_097);
}

#[test]
fn the_tenths_are_what_the_program_prints() {
    let printed = concat!(env!("CARGO_MANIFEST_DIR"), "/../crates/tenths/stdout");
    assert_eq!(std::fs::read_to_string(printed).unwrap(), tenths());
}
