//! Runs of trades: one to thousands in a row, whatever parts them.

use super::super::Draft;
use super::growing::Growing;
use crate::reading::book::TRADES;
use crate::trial::random::Random;
use std::ops::RangeInclusive;

/// Many short runs.
pub(super) fn parted(random: &mut Random) -> Draft {
    let mut list = Growing::new(random);
    list.sections(2..=8);
    for _ in 0..list.some(10..=40) {
        let most = list.random.pick(&[1, 2, 7]);
        list.trades(1..=most, 40);
        part(&mut list);
    }
    if list.random.percent(50) {
        list.finish();
        list.trades(0..=3, 50);
    }
    list.draft()
}

/// One call or two that part two runs, accepted or refused, or an event that does
/// not read.
fn part(list: &mut Growing) {
    match list.random.below(8) {
        0 | 1 => list.unreadable(),
        2 => list.refused_session(),
        3 => list.session(),
        4 => list.sections(1..=1),
        5 => list.condition(),
        6 => list.notice(),
        _ => {
            list.unreadable();
            list.condition();
        }
    }
}

/// Runs of hundreds in which two positions come to their limits, pass them and
/// come back.
pub(super) fn hundreds(random: &mut Random) -> Draft {
    let mut list = Growing::new(random);
    list.sections(2..=4);
    leaning(&mut list, 150..=450);
    for _ in 0..list.some(1..=3) {
        part(&mut list);
        leaning(&mut list, 20..=220);
    }
    if list.random.percent(50) {
        list.finish();
        list.trades(2..=2, 0);
    }
    list.draft()
}

/// Trades of which most lean one way.
fn leaning(list: &mut Growing, count: RangeInclusive<usize>) {
    for _ in 0..list.some(count) {
        match list.random.below(40) {
            0 => list.lean_back(),
            1 => list.trade(),
            2 | 3 => list.trades(1..=1, 100),
            _ => list.lean(),
        }
    }
}

/// More trades than a session lets be, in one run, in several or up to the last
/// event; four turns have every sort.
pub(super) fn thousands(random: &mut Random, turn: usize) -> Draft {
    let mut list = Growing::new(random);
    list.sections(2..=21);
    match turn % 4 {
        0 => list.trades(2_001..=3_400, 2),
        1 => while_room_for_trades(&mut list),
        2 => exactly(&mut list),
        _ => return to_the_last_event(list),
    }
    list.trades(0..=2, 0);
    list.refused_session();
    list.trades(1..=3, 0);
    list.session();
    list.trades(1..=200, 10);
    if list.random.percent(50) {
        list.finish();
    }
    list.draft()
}

/// Runs of some hundreds, without a session, until there are 2,000 trades.
fn while_room_for_trades(list: &mut Growing) {
    while list.book().trades_since < TRADES {
        list.trades(200..=700, 2);
        match list.random.percent(85) {
            true => list.unreadable(),
            false => list.condition(),
        }
    }
}

/// 2,000 trades, none refused, and some after a session.
fn exactly(list: &mut Growing) {
    list.trades(2_000..=2_000, 0);
    list.session();
    list.trades(1..=1_400, 0);
}

/// One run that leaves just room for an expiry, or for it and some trades.
fn to_the_last_event(mut list: Growing) -> Draft {
    let end = list.book().sections_held + list.some(2..=4);
    let run = list.room() - end;
    list.trades(run..=run, 1);
    list.finish();
    let rest = list.room();
    list.trades(rest..=rest, 0);
    list.draft()
}
