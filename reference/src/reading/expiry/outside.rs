//! Steps 4 and 5: the lots that go outside their code, and the notices drawn.

use super::{Drawn, code, nets, on_side, settlement_code};
use crate::reading::book::Book;
use std::cmp::Reverse;

/// Step 4: "In each code, sections on the side of the remaining net are marked
/// "outside" by remaining size descending, then section code, until the net is
/// reached; the last one is split there (ours)." Returns the outside part of
/// each section, with the section's sign.
pub fn mark_outside(book: &Book, left: &[i64]) -> Vec<i64> {
    let mut outside = vec![0; left.len()];
    for (c, net) in nets(book, left).iter_mut().enumerate() {
        let mut marked = on_side(left, net.signum());
        marked.retain(|&i| settlement_code(book, i) == c);
        marked.sort_by_key(|&i| (Reverse(left[i].abs()), code(book, i)));
        for i in marked {
            let sign = left[i].signum();
            outside[i] = sign * left[i].abs().min(net.abs());
            *net -= outside[i];
        }
    }
    outside
}

/// Step 5: "Notices of a short section are drawn in filing order: inside lots,
/// then outside lots; the terminated come off the end (ours)." What a section
/// that is long or fails could draw is 0, so its notices are ignored.
pub fn draw_notices(book: &Book, left: &[i64], outside: &[i64]) -> Vec<Drawn> {
    let parts = left.iter().zip(outside);
    let mut inside_open: Vec<i64> = parts.map(|(left, out)| (out - left).max(0)).collect();
    let mut outside_open: Vec<i64> = outside.iter().map(|out| (-out).max(0)).collect();
    let mut drawn = Vec::new();
    for notice in book.notices() {
        let section = usize::from(notice.section);
        let inside = i64::from(notice.lots).min(inside_open[section]);
        let outside = (i64::from(notice.lots) - inside).min(outside_open[section]);
        inside_open[section] -= inside;
        outside_open[section] -= outside;
        drawn.push(Drawn { inside, outside });
    }
    drawn
}
