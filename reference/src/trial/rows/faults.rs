//! Refused rows.

use super::draft::{Draft, any_date};
use super::runs::run;
use crate::reading::calendar::leap;
use crate::reading::last_day::CLOSED;
use crate::trial::random::Random;

/// Makes a draft one that is refused.
type Fault = fn(&mut Random, &mut Draft);

const YEAR_OR_MONTH: [Fault; 7] = [
    |_, draft| draft.year = 2020,
    |random, draft| draft.year = random.pick(&[0, 21, 1970, 2019]),
    |_, draft| draft.year = 2051,
    |random, draft| draft.year = random.pick(&[2052, 20_210, 202_105, u32::MAX]),
    |_, draft| draft.month = 0,
    |_, draft| draft.month = 13,
    |random, draft| draft.month = random.pick(&[14, 99, 256, u32::MAX]),
];

const CLOSED_DATES: [Fault; 21] = [
    |random, draft| fill(random, draft, CLOSED + 1),
    |random, draft| {
        let many = random.from_to(66, 400) as usize;
        fill(random, draft, many);
    },
    |_, draft| insert(draft, 20_201_231),
    |random, draft| insert(draft, random.pick(&[10_510, 2_021_510, 20_200_229])),
    |_, draft| insert(draft, 0),
    |_, draft| insert(draft, 20_520_101),
    |random, draft| insert(draft, random.pick(&[20_520_229, 202_105_100, u32::MAX])),
    |random, draft| {
        let year = year(random, draft);
        let common = if leap(year) { year + 1 } else { year };
        insert(draft, 10_000 * common + 229);
    },
    |random, draft| bad_day(random, draft, &[230]),
    |random, draft| insert(draft, random.pick(&[20_240_230, 20_320_230, 20_480_230])),
    |random, draft| bad_day(random, draft, &[1, 10, 28, 31]),
    |random, draft| bad_day(random, draft, &[1_301, 1_310, 1_331]),
    |random, draft| bad_day(random, draft, &[1_401, 2_010, 9_910]),
    |random, draft| bad_day(random, draft, &[100, 200, 300, 1_200]),
    |random, draft| bad_day(random, draft, &[431, 631, 931, 1_131]),
    |random, draft| bad_day(random, draft, &[132, 332, 1_232]),
    |random, draft| bad_day(random, draft, &[0, 231, 1_299, 9_999]),
    |random, draft| equal(random, draft, false),
    |random, draft| equal(random, draft, true),
    |random, draft| descending(random, draft, false),
    |random, draft| descending(random, draft, true),
];

/// One fault alone or, at the end of a round, one of 30 and one of 31.
pub(super) fn fault(random: &mut Random, turn: usize) -> Draft {
    let mut draft = run(random);
    draft.closed.truncate(CLOSED - 1);
    let alone = [&YEAR_OR_MONTH[..], &CLOSED_DATES[..]].concat();
    let both = [random.pick(&YEAR_OR_MONTH), random.pick(&CLOSED_DATES)];
    let faults = match alone.get(turn % (alone.len() + 2)) {
        Some(fault) => &[*fault][..],
        None => &both,
    };
    for fault in faults {
        fault(random, &mut draft);
    }
    draft
}

/// A date in its place.
fn insert(draft: &mut Draft, date: u32) {
    let place = draft.closed.partition_point(|&earlier| earlier < date);
    draft.closed.insert(place, date);
}

/// So many dates, all allowed.
fn fill(random: &mut Random, draft: &mut Draft, length: usize) {
    while draft.closed.len() < length {
        let date = any_date(random);
        if !draft.closed.contains(&date) {
            insert(draft, date);
        }
    }
}

/// The year of the month that is asked for, or another.
fn year(random: &mut Random, draft: &Draft) -> u32 {
    let any = random.from_to(2021, 2050);
    let asked = draft.year.clamp(2021, 2050);
    random.pick(&[asked, any])
}

/// A month and day that no year has.
fn bad_day(random: &mut Random, draft: &mut Draft, days: &[u32]) {
    let year = year(random, draft);
    insert(draft, 10_000 * year + random.pick(days));
}

/// A date twice, the last or any.
fn equal(random: &mut Random, draft: &mut Draft, at_end: bool) {
    fill(random, draft, 2);
    let last = draft.closed.len() - 1;
    let place = if at_end { last } else { random.below(last) };
    draft.closed.insert(place, draft.closed[place]);
}

/// Two neighbours in each other's place, the last or any.
fn descending(random: &mut Random, draft: &mut Draft, at_end: bool) {
    fill(random, draft, 3);
    let last = draft.closed.len() - 1;
    let place = if at_end { last } else { 1 + random.below(last) };
    draft.closed.swap(place - 1, place);
}
