//! The last trading day: cases worked by hand, and the form of the rows.

use wheat_delivery::reading::last_day::last_day;
use wheat_delivery::reading::refusal::Refusal::{ClosedDates, YearOrMonth};
use wheat_delivery::reading::rows::printed;

/// The 64 trading days from Saturday 10 December 2050 on, written by hand: 15
/// of December, 22 of January, 20 of February and 7 of March.
fn to_march_2051() -> Vec<u32> {
    let december = [12..=16, 19..=23, 26..=30].map(|week| (20_501_200, week));
    let january = [2..=6, 9..=13, 16..=20, 23..=27, 30..=31].map(|week| (20_510_100, week));
    let february = [1..=3, 6..=10, 13..=17, 20..=24, 27..=28].map(|week| (20_510_200, week));
    let march = [1..=3, 6..=9].map(|week| (20_510_300, week));
    let weeks = december
        .into_iter()
        .chain(january)
        .chain(february)
        .chain(march);
    weeks
        .flat_map(|(month, week)| week.map(move |day| month + day))
        .collect()
}

#[test]
fn the_tenth_is_the_last_trading_day_where_it_is_one() {
    assert_eq!(last_day(2021, 5, &[]), Ok(20_210_510));
    assert_eq!(last_day(2021, 5, &[20_210_510]), Ok(20_210_511));
}

#[test]
fn a_saturday_or_a_sunday_is_none() {
    assert_eq!(last_day(2021, 7, &[]), Ok(20_210_712));
    assert_eq!(last_day(2021, 1, &[]), Ok(20_210_111));
    assert_eq!(last_day(2021, 7, &[20_210_710, 20_210_711]), Ok(20_210_712));
    assert_eq!(last_day(2021, 7, &[20_210_712]), Ok(20_210_713));
    // Friday 10 September 2021 closed: the next is Monday the 13th.
    assert_eq!(last_day(2021, 9, &[20_210_910]), Ok(20_210_913));
}

#[test]
fn the_first_open_day_is_the_answer_even_where_closed_ones_follow() {
    let closed = [20_210_510, 20_210_511, 20_210_513, 20_210_514];
    assert_eq!(last_day(2021, 5, &closed), Ok(20_210_512));
}

#[test]
fn dates_before_the_tenth_and_in_other_years_have_no_effect() {
    let closed = [20_210_101, 20_210_509, 20_220_510, 20_511_231];
    assert_eq!(last_day(2021, 5, &closed), Ok(20_210_510));
}

#[test]
fn the_answer_may_lie_in_the_next_month_or_year() {
    // 10 February 2024 is a Saturday; from Monday the 12th to Thursday the 29th
    // there are 14 trading days, and 1 March is a Friday.
    let mut closed: Vec<u32> = [12..=16, 19..=23, 26..=29]
        .into_iter()
        .flatten()
        .map(|day| 20_240_200 + day)
        .collect();
    assert_eq!(last_day(2024, 2, &closed), Ok(20_240_301));
    closed.pop();
    assert_eq!(last_day(2024, 2, &closed), Ok(20_240_229));
    // 10 December 2021 is a Friday and 3 January 2022 a Monday.
    let mut closed = vec![20_211_210];
    for week in [13..=17, 20..=24, 27..=31] {
        closed.extend(week.map(|day| 20_211_200 + day));
    }
    assert_eq!(last_day(2021, 12, &closed), Ok(20_220_103));
}

/// 1 January 2050 is a Saturday, as 50 years with 13 leap days are 2,609 weeks
/// after that of 2000; 10 December is 49 weeks later. Twelve weeks from Monday
/// the 12th on are 60 trading days; the thirteenth begins on 6 March 2051, and
/// its fifth day is open.
#[test]
fn sixty_four_closed_days_from_december_2050_end_on_10_march_2051() {
    let mut closed = to_march_2051();
    assert_eq!(closed.len(), 64);
    assert_eq!(last_day(2050, 12, &closed), Ok(20_510_310));
    assert_eq!(last_day(2050, 12, &closed[..63]), Ok(20_510_309));
    assert_eq!(last_day(2050, 12, &closed[1..]), Ok(20_501_212));
    closed.push(20_510_310);
    assert_eq!(last_day(2050, 12, &closed), Err(ClosedDates));
}

#[test]
fn a_year_outside_2021_to_2050_or_a_month_outside_1_to_12_is_refused() {
    let outside = [
        (2020, 5),
        (2051, 5),
        (0, 5),
        (u32::MAX, 5),
        (2021, 0),
        (2021, 13),
    ];
    for (year, month) in outside {
        assert_eq!(last_day(year, month, &[]), Err(YearOrMonth));
    }
    assert_eq!(last_day(2050, 12, &[]), Ok(20_501_212));
}

#[test]
fn a_date_outside_2021_to_2051_is_refused() {
    for date in [0, 20_201_231, 20_520_101, 2_021_510, 202_105_100, u32::MAX] {
        assert_eq!(last_day(2021, 5, &[date]), Err(ClosedDates), "{date}");
    }
    assert_eq!(last_day(2021, 5, &[20_210_101, 20_511_231]), Ok(20_210_510));
}

#[test]
fn a_number_that_is_no_date_of_the_calendar_is_refused() {
    let none = [
        20_210_229, 20_230_229, 20_240_230, 20_211_301, 20_210_010, 20_210_500,
    ];
    for date in none.into_iter().chain([20_210_431, 20_210_532, 20_219_999]) {
        assert_eq!(last_day(2021, 5, &[date]), Err(ClosedDates), "{date}");
    }
    assert_eq!(last_day(2021, 5, &[20_240_229]), Ok(20_210_510));
}

#[test]
fn dates_that_do_not_ascend_are_refused_even_past_the_answer() {
    let lists = [
        [20_210_510, 20_210_510, 20_210_511],
        [20_210_511, 20_210_510, 20_210_512],
        [20_210_510, 20_220_101, 20_220_101],
        [20_210_510, 20_220_102, 20_220_101],
    ];
    for closed in lists {
        assert_eq!(last_day(2021, 5, &closed), Err(ClosedDates), "{closed:?}");
    }
}

#[test]
fn more_than_64_dates_are_refused_even_where_none_has_an_effect() {
    let closed: Vec<u32> = (2022..=2051)
        .flat_map(|y| [1, 2, 3].map(|d| 10_000 * y + 100 + d))
        .collect();
    assert_eq!(last_day(2021, 5, &closed[..64]), Ok(20_210_510));
    assert_eq!(last_day(2021, 5, &closed[..65]), Err(ClosedDates));
    assert_eq!(last_day(2021, 5, &closed), Err(ClosedDates));
}

#[test]
fn of_both_refusals_30_is_answered() {
    assert_eq!(last_day(2020, 5, &[0]), Err(YearOrMonth));
    assert_eq!(
        last_day(2021, 13, &[20_210_511, 20_210_510]),
        Err(YearOrMonth)
    );
}

#[test]
fn a_row_is_printed_for_each_row() {
    assert_eq!(printed(b""), "");
    assert_eq!(printed(b"\n"), "bad row\n");
    assert_eq!(printed(b"a\n"), "bad row\n");
    assert_eq!(printed(b"2021 5"), "20210510\n");
    let input = b"2021 5 20210510\n\n2020 5 0\n2021 05 0\n0002021 7\n";
    let wanted = "20210511\nbad row\nrefused 30\nrefused 31\n20210712\n";
    assert_eq!(printed(input), wanted);
}

#[test]
fn any_other_row_is_bad() {
    let rows: [&[u8]; 16] = [
        b"2021",
        b" 2021 5",
        b"2021 5 ",
        b"2021  5",
        b" ",
        b"2021\t5",
        b"2021 5\r",
        b"2021 -5",
        b"2021 +5",
        b"2021 5 x",
        b"2021,5",
        b"4294967296 5",
        b"2021 5 4315177806",
        b"18446744073709553637 5",
        b"2021 5\0",
        b"\xff 5",
    ];
    for row in rows {
        assert_eq!(printed(row), "bad row\n", "{}", row.escape_ascii());
    }
    assert_eq!(printed(b"4294967295 5"), "refused 30\n");
    assert_eq!(printed(b"2021 5 4294967295"), "refused 31\n");
}

#[test]
fn a_row_has_at_most_4_096_bytes() {
    let row = |length: usize| format!("{}2021 5", "0".repeat(length - 6));
    assert_eq!(printed(row(4_096).as_bytes()), "20210510\n");
    assert_eq!(printed(row(4_097).as_bytes()), "bad row\n");
    let long = format!("{}\n2021 7\n", row(20_000));
    assert_eq!(printed(long.as_bytes()), "bad row\n20210712\n");
}
