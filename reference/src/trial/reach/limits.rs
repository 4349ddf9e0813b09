//! The limits, each with how an accepted file shows it.

use super::turns::Turn;
use super::view::View;
use crate::reading::file::event::Event;
use crate::reading::value::factor;

/// The limits, each with whether an accepted file is at it.
pub const LIMITS: &[Turn] = &[
    ("128 sections", |v| v.book.sections_held == 128),
    ("256 notices", |v| v.book.notices_held == 256),
    ("2,000 trades since a session or the opening", |v| {
        v.most_trades() == 2_000
    }),
    ("3,800 events", |v| v.events.len() == 3_800),
    ("K 1", |v| factor(v.book.w, v.book.r) == 1),
    ("K 10,000,000", |v| factor(v.book.w, v.book.r) == 10_000_000),
    ("a position at 1,000,000", |v| v.any_position(1_000_000)),
    ("a position at -1,000,000", |v| v.any_position(-1_000_000)),
    ("a lot of 1,000 tonnes", |v| v.book.lot == 1_000),
    ("a session at 10,000,000", |v| {
        v.events.contains(&Event::Session { price: 10_000_000 })
    }),
    ("a sum of margins beyond 10^16", |v| {
        v.margin_sums
            .iter()
            .any(|m| m.abs() > 10_000_000_000_000_000)
    }),
    ("300 lines or more", |v| v.settlement.lines().count() >= 300),
    ("300 lines kept or more", |v| v.removal.kept() >= 300),
    ("100 lines removed or more", |v| v.removal.removed() >= 100),
    ("1,000,000 lots lapsed", |v| {
        v.removal.any_section(|l| l.lapsed == 1_000_000)
    }),
    ("no section", |v| v.book.sections_held == 0),
];

impl View {
    fn most_trades(&self) -> usize {
        let stretches = self
            .events
            .split(|event| matches!(event, Event::Session { .. }));
        let trades = |events: &[Event]| {
            events
                .iter()
                .filter(|e| matches!(e, Event::Trade { .. }))
                .count()
        };
        stretches.map(trades).max().unwrap_or(0)
    }

    fn any_position(&self, position: i64) -> bool {
        self.sections()
            .any(|i| self.book.sections[i].position == position)
    }
}
