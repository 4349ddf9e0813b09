//! What a file for the program `calls` can reach, by group.

use super::view::{Step, View};
use crate::reading::book::SECTIONS;
use crate::reading::file::EVENTS;
use crate::reading::file::event::{Event, encode};
use crate::trial::removal::Removal;
use std::collections::BTreeSet;

/// The name of what is reached, and whether a file does.
pub(super) type Turn = (&'static str, fn(&View) -> bool);

pub(super) const GROUPS: [(&str, &[Turn]); 5] = [
    ("files", FILES),
    ("runs of trades", RUNS),
    ("what parts two runs", PARTS),
    ("accepted sessions", SESSIONS),
    ("accepted expiries", EXPIRIES),
];

const FILES: &[Turn] = &[
    ("no byte", |v| v.bytes == 0),
    ("200,000 bytes or more", |v| v.bytes >= 200_000),
    ("no event", |v| v.away.is_none() && v.steps.is_empty()),
    ("3,800 events", |v| v.steps.len() == EVENTS),
    ("all accepted", |v| {
        !v.steps.is_empty() && v.steps.iter().all(Step::is_accepted)
    }),
    ("none accepted", |v| {
        !v.steps.is_empty() && !v.any(Step::is_accepted)
    }),
    ("an unreadable event first", |v| {
        v.steps.first().is_some_and(|step| step.number == 26)
    }),
    ("ten numbers or more", |v| numbers(&v.steps).len() >= 10),
];

const RUNS: &[Turn] = &[
    ("of 1", |v| v.any_run(|run| run.len() == 1)),
    ("of 2", |v| v.any_run(|run| run.len() == 2)),
    ("of 3 to 99", |v| {
        v.any_run(|run| (3..100).contains(&run.len()))
    }),
    ("of 100 to 1,999", |v| {
        v.any_run(|run| (100..2_000).contains(&run.len()))
    }),
    ("of 2,000 to 2,999", |v| {
        v.any_run(|run| (2_000..3_000).contains(&run.len()))
    }),
    ("of 3,000 or more", |v| v.any_run(|run| run.len() >= 3_000)),
    ("10 between accepted ones", |v| between(v, 10)),
    ("11 between accepted ones", |v| between(v, 11)),
    ("12 between accepted ones", |v| between(v, 12)),
    ("13 between accepted ones", |v| between(v, 13)),
    ("14 between accepted ones", |v| between(v, 14)),
    ("three numbers or more in one", |v| {
        v.any_run(|run| numbers(run).len() >= 3)
    }),
    ("two or more, all refused before an expiry", |v| {
        v.any_run(|run| run.len() > 1 && run.iter().all(|t| !matches!(t.number, 0 | 5)))
    }),
    ("14 only since an earlier one of its run", |v| {
        v.any_run(|run| run.iter().any(|t| (t.number, t.before_run) == (14, 0)))
    }),
    ("accepted only since an earlier one of its run", |v| {
        v.any_run(|run| run.iter().any(|t| (t.number, t.before_run) == (0, 14)))
    }),
    ("2,000 accepted, and 15", |v| {
        v.any_run(|run| accepted(run) == 2_000 && has(run, 15))
    }),
    ("2,000 accepted, and no more", |v| {
        v.any_run(|run| accepted(run) == 2_000 && run.len() == 2_000)
    }),
    ("15 after fewer accepted ones", |v| {
        v.any_run(|run| (1..2_000).contains(&accepted(run)) && has(run, 15))
    }),
    ("10 to 14 after 15", |v| {
        v.any_run(|run| {
            let mut later = run.iter().skip_while(|trade| trade.number != 15);
            later.any(|t| (10..15).contains(&t.number))
        })
    }),
    ("after an expiry, two or more", |v| {
        v.any_run(|run| run.len() > 1 && has(run, 5))
    }),
];

const PARTS: &[Turn] = &[
    ("an unreadable event", |v| {
        v.parted(|_, step, _| step.event.is_none())
    }),
    ("an unreadable trade", |v| {
        v.parted(|_, step, _| step.event.is_none() && step.kind == 2)
    }),
    ("a refused session", |v| {
        v.parted(|_, step, _| step.is_session() && !step.is_accepted())
    }),
    ("an accepted session", |v| {
        v.parted(|_, step, _| step.is_session() && step.is_accepted())
    }),
    ("a section", |v| {
        v.parted(|_, step, _| matches!(step.event, Some(Event::Section { .. })))
    }),
    ("a refused session, and 15 on both sides", |v| {
        v.parted(|run, step, later| {
            step.is_session() && step.number == 16 && has(run, 15) && later[0].number == 15
        })
    }),
    ("an accepted session, and 15 before it alone", |v| {
        v.parted(|run, step, later| step.is_session() && has(run, 15) && later[0].is_accepted())
    }),
    ("an unreadable event, and 15 only since the first", |v| {
        v.parted(|run, step, later| {
            step.event.is_none() && !has(run, 15) && accepted(run) > 0 && has(later, 15)
        })
    }),
];

const SESSIONS: &[Turn] = &[
    ("with 0 sections", |v| v.any_session(|s| s.held == 0)),
    ("with 128 sections", |v| {
        v.any_session(|s| s.held == SECTIONS)
    }),
    ("with a margin below 0", |v| {
        v.any_session(|s| s.margins.iter().any(|&m| m < 0))
    }),
    ("with sections and all margins 0", |v| {
        v.any_session(|s| s.held > 0 && s.margins.iter().all(|&m| m == 0))
    }),
    ("with a margin beyond 10^12", |v| {
        let beyond = |&m: &i64| m.abs() > 1_000_000_000_000;
        v.any_session(|s| s.margins.iter().any(beyond))
    }),
    ("at the place after a refused one", |v| {
        let both = |a: &Step, b: &Step| a.is_session() && b.is_session();
        let mut two = v.steps.windows(2);
        two.any(|two| both(&two[0], &two[1]) && two[0].number == 16 && two[1].is_accepted())
    }),
];

const EXPIRIES: &[Turn] = &[
    ("with lines", |v| v.removal(|r| !r.lines.is_empty())),
    ("with 300 lines or more", |v| {
        v.removal(|r| r.lines.len() >= 300)
    }),
    ("with sections and no line", |v| {
        v.removal(|r| !r.sections.is_empty() && r.lines.is_empty())
    }),
    ("with 300 lines kept or more", |v| {
        v.removal(|r| r.kept() >= 300)
    }),
    ("with 50 lines removed or more", |v| {
        v.removal(|r| r.removed() >= 50)
    }),
    ("with none of several lines removed", |v| {
        v.removal(|r| r.kept() > 1 && r.removed() == 0)
    }),
    ("with the first line removed, others kept", |v| {
        v.removal(Removal::first)
    }),
    ("with a line removed between two kept ones", |v| {
        v.removal(Removal::between)
    }),
    ("with the last line removed, others kept", |v| {
        v.removal(Removal::last)
    }),
    ("with all of several lines removed", |v| {
        v.removal(Removal::all)
    }),
    ("with a line of an inside pass removed", |v| {
        v.removal(|r| r.any_removed(|line| line.inside))
    }),
    ("with a line of the outside pass removed", |v| {
        v.removal(|r| r.any_removed(|line| !line.inside))
    }),
    ("with all three lots in one section", |v| {
        v.removal(|r| r.any_section(|lots| lots.kinds() == [true; 3]))
    }),
    ("with lapsed lots alone in a long section", |v| {
        v.removal(|r| r.any_section(|lots| lots.long && lots.lapsed_alone()))
    }),
    ("with lapsed lots alone in a short section", |v| {
        v.removal(|r| r.any_section(|lots| !lots.long && lots.lapsed_alone()))
    }),
    ("with all that a notice drew lapsed", |v| {
        v.removal(|r| r.notices().iter().any(|[kept, _]| *kept == 0))
    }),
    ("with no section", |v| {
        v.expiry().is_some_and(|e| e.held == 0)
    }),
    ("after one refused with 22", |v| {
        v.expiry().is_some() && has(v.before_expiry(), 22)
    }),
    ("with nothing after it", |v| {
        v.expiry().is_some() && v.after_expiry().is_empty()
    }),
    ("with another after it", |v| {
        v.after_expiry().iter().any(Step::is_expiry)
    }),
    ("with every kind after it", |v| {
        let kinds = v.after_expiry().iter().filter_map(|step| step.event);
        let kinds: BTreeSet<u8> = kinds.map(|event| encode(&event).0).collect();
        kinds.len() == 6
    }),
    ("with 26 and 5 after it", |v| {
        has(v.after_expiry(), 26) && has(v.after_expiry(), 5)
    }),
];

/// The numbers with which steps are refused.
fn numbers(steps: &[Step]) -> BTreeSet<u8> {
    let numbers = steps.iter().map(|step| step.number);
    numbers.filter(|&number| number != 0).collect()
}

fn has(steps: &[Step], number: u8) -> bool {
    steps.iter().any(|step| step.number == number)
}

fn accepted(steps: &[Step]) -> usize {
    steps.iter().filter(|step| step.is_accepted()).count()
}

/// A trade refused with the number, with accepted ones of its run before and
/// after it.
fn between(view: &View, number: u8) -> bool {
    let place = |run: &[Step]| run.iter().position(|trade| trade.number == number);
    view.any_run(|run| {
        let first = run.iter().position(Step::is_accepted);
        let last = run.iter().rposition(Step::is_accepted);
        let refused = first.and_then(|first| place(&run[first..]).map(|place| first + place));
        refused.is_some_and(|place| last > Some(place))
    })
}
