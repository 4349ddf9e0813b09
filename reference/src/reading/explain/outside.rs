//! Steps 4 and 5: what goes outside its code, and what is drawn of the notices
//! (000, 2.4).

use super::{Page, numbers, tie};
use crate::reading::book::Book;
use crate::reading::expiry::{Settlement, nets};
use std::cmp::Reverse;

/// Step 4, for each code with lots left.
pub(super) fn step_four(page: &mut Page, book: &Book, settlement: &Settlement) {
    page.rows(
        "
Step 4. What goes outside, and what stays inside (000, 2.4; 01, Expiry, step 4)
Sections on the side of their code's net are marked outside, largest first, then lower section
code, until the net is reached; the last one is split there (ours). The rest is inside.",
    );
    let left = &settlement.left;
    for (c, net) in nets(book, left).into_iter().enumerate() {
        let sections = numbers(book, |i, section| {
            usize::from(section.settlement_code) == c && left[i] != 0
        });
        if sections.is_empty() {
            continue;
        }
        page.row(format!("code {c} has the net {net}"));
        let on_side = |i: &usize| left[*i].signum() == net.signum();
        let (mut marked, others): (Vec<usize>, Vec<usize>) =
            sections.into_iter().partition(on_side);
        marked.sort_by_key(|&i| (Reverse(left[i].abs()), book.sections[i].code));
        marked_outside(page, book, settlement, net.abs(), &marked);
        for i in others {
            let (code, lots) = (book.sections[i].code, left[i].abs());
            page.row(format!("    {code} has {lots} lots: all inside"));
        }
    }
}

/// The sections on the side of a net of that size, until it is reached.
fn marked_outside(
    page: &mut Page,
    book: &Book,
    settlement: &Settlement,
    net: i64,
    sections: &[usize],
) {
    let mut open = net;
    let mut before = None;
    for &i in sections {
        tie(page, book, &settlement.left, before.replace(i), i);
        let (code, lots) = (book.sections[i].code, settlement.left[i].abs());
        let outside = settlement.outside[i].abs();
        let inside = lots - outside;
        open -= outside;
        page.row(format!(
            "    {code} has {lots} lots: {outside} outside, {inside} inside; {open} left of the net"
        ));
        if outside > 0 && inside > 0 {
            page.row(format!(
                "    {code} is split here, where the net is reached"
            ));
        }
    }
}

/// Step 5, for each notice in filing order.
pub(super) fn step_five(page: &mut Page, book: &Book, settlement: &Settlement) {
    page.rows(
        "
Step 5. What is drawn of the notices (000 is silent, ours; 01, Expiry, step 5)
A short section's notices are drawn in filing order: its inside lots, then its outside lots; the
terminated come off the end.",
    );
    for (i, (notice, drawn)) in book.notices().iter().zip(&settlement.drawn).enumerate() {
        let number = usize::from(notice.section);
        let section = &book.sections[number];
        let (code, elevator, lots) = (section.code, notice.elevator, notice.lots);
        page.say(format!(
            "notice {i}: {code} at elevator {elevator}, {lots} lots"
        ));
        let (inside, outside) = (drawn.inside, drawn.outside);
        let terminated = i64::from(lots) - inside - outside;
        page.row(match (section.position < 0, settlement.failing[number]) {
            (false, _) => ": ignored, the section is not short".to_string(),
            (true, true) => ": none is drawn, the section fails".to_string(),
            (true, false) => {
                format!(": {inside} inside, {outside} outside, {terminated} terminated")
            }
        });
    }
}
