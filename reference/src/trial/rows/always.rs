//! The inputs that are always given, whatever the seed: every month, all days of
//! every month, rows of some lengths and inputs of hardly any byte.

use super::draft::Draft;
use super::edges::closed_for;
use super::inputs::ended;
use super::runs::run;
use crate::reading::calendar::days_of_month;
use crate::reading::last_day::CLOSED;
use crate::reading::rows::ROW;
use crate::trial::input::Input;
use crate::trial::random::Random;

pub(super) fn always() -> Vec<Input> {
    let random = &mut Random::new(0);
    let mut inputs: Vec<Input> = vec![];
    inputs.extend([0, 20, CLOSED].map(|closed| every_month(random, closed)));
    inputs.extend([0, 1].map(all_days));
    inputs.extend([ROW - 1, ROW, ROW + 1, 5 * ROW].map(|length| of_length(random, length)));
    inputs.push(Input::new("no byte", vec![]));
    inputs.push(Input::new("one byte 10", vec![10]));
    inputs.push(Input::new("three bytes 10", vec![10; 3]));
    inputs
}

/// The months from 2021 to the last year.
fn months(last: u32) -> impl Iterator<Item = (u32, u32)> {
    (2021..=last).flat_map(|year| (1..=12).map(move |month| (year, month)))
}

/// Every month, its first so many trading days from the 10th on closed.
fn every_month(random: &mut Random, closed: usize) -> Input {
    let drafts = months(2050).map(|month| closed_for(random, month, closed));
    let rows: Vec<Vec<u8>> = drafts.map(|draft| draft.bytes()).collect();
    let name = format!("every month, {closed} trading days closed");
    Input::new(name, ended(&rows))
}

/// All days of every month closed, and so many more, which are no dates.
fn all_days(more: u32) -> Input {
    let rows = months(2051).map(|(year, month)| {
        let days = 1..=days_of_month(year, month) + more;
        let closed = days.map(|day| 10_000 * year + 100 * month + day).collect();
        let year = year.min(2050);
        let draft = Draft {
            year,
            month,
            closed,
        };
        draft.bytes()
    });
    let name = format!("all days of every month, and {more} more");
    Input::new(name, ended(&rows.collect::<Vec<_>>()))
}

/// Rows of one length, so that they end where a buffer of a program ends, or one
/// byte beside it.
fn of_length(random: &mut Random, length: usize) -> Input {
    let drafts: Vec<Draft> = (0..20).map(|_| run(random)).collect();
    let rows = drafts.iter().map(|draft| draft.padded(random, length));
    let name = format!("rows of {length} bytes");
    Input::new(name, ended(&rows.collect::<Vec<_>>()))
}
