//! Steps 1 to 3: the sections that fail, and what is given for them (000, 2.1 to
//! 2.3).

use super::events::mark;
use super::{Page, numbers, tie};
use crate::reading::book::{Book, SETTLEMENT_CODES, Section};
use crate::reading::expiry::failing::noticed;
use crate::reading::expiry::{Settlement, nets};

/// Step 1: each section, and every reason for which it fails.
pub(super) fn step_one(page: &mut Page, book: &Book) {
    page.rows("\nStep 1. Which sections fail (000, 2.1; 01, Expiry, step 1)");
    for (i, section) in book.sections().iter().enumerate() {
        let noticed = noticed(book, i);
        let (code, position) = (section.code, section.position);
        page.say(format!(
            "{code} code {}, position {position}, lots in notices {noticed}",
            section.settlement_code
        ));
        page.say(match section.condition_met {
            true => ", condition met",
            false => ", condition not met",
        });
        page.row(mark(section));
        let reasons = reasons(section, noticed);
        for reason in &reasons {
            page.row(format!("    fails: {reason}"));
        }
        match reasons.is_empty() {
            true => page.row("    sound"),
            false => page.row(format!("    its {} lots are terminated", position.abs())),
        }
    }
}

/// "its condition is not met, or it is short without the seller mark, or (ours) it
/// is short and its notices do not sum to its lots"
fn reasons(section: &Section, noticed: i64) -> Vec<&'static str> {
    let short = section.position < 0;
    let all = [
        (!section.condition_met, "its condition is not met"),
        (
            short && !section.seller,
            "it is short without the seller mark",
        ),
        (
            short && noticed != -section.position,
            "it is short and its notices do not sum to its lots (ours)",
        ),
    ];
    let holding = all.into_iter().filter(|(holds, _)| *holds);
    holding.map(|(_, reason)| reason).collect()
}

/// Sorts sections as they give: "smallest first, then lower section code by bytes".
fn smallest_first(book: &Book, lots: &[i64], sections: &mut [usize]) {
    sections.sort_by_key(|&i| (lots[i].abs(), book.sections[i].code));
}

/// Step 2, for each code in which lots fail.
pub(super) fn step_two(page: &mut Page, book: &Book, settlement: &Settlement) {
    page.rows(
        "
Step 2. Each settlement code closes what fails in it (000, 2.2; 01, Expiry, step 2)
D(c) is the sum of the failing positions of code c. Sound sections on the other side give, smallest
first, then lower section code. Codes where no lots fail are not shown.",
    );
    for c in 0..SETTLEMENT_CODES {
        let failing = numbers(book, |i, section| {
            usize::from(section.settlement_code) == c
                && settlement.failing[i]
                && section.position != 0
        });
        if !failing.is_empty() {
            page.row(format!("code {c}, what fails"));
            for i in failing {
                let (code, position) = (book.sections[i].code, book.sections[i].position);
                page.row(format!("    {code} has {position}"));
            }
            within_code(page, book, settlement, c);
        }
    }
}

/// D(c), and what each sound section on the other side gives of its position.
fn within_code(page: &mut Page, book: &Book, settlement: &Settlement, c: usize) {
    let d = settlement.failed[c];
    page.row(format!("    D({c}) = {d}"));
    let positions: Vec<i64> = book.sections().iter().map(|s| s.position).collect();
    let mut givers = numbers(book, |i, section| {
        usize::from(section.settlement_code) == c
            && !settlement.failing[i]
            && section.position.signum() * d.signum() == -1
    });
    smallest_first(book, &positions, &mut givers);
    let mut open = d;
    let mut before = None;
    for i in givers {
        tie(page, book, &positions, before.replace(i), i);
        let (code, lots) = (book.sections[i].code, positions[i].abs());
        let gives = lots - settlement.left_within[i].abs();
        open -= d.signum() * gives;
        page.row(format!(
            "    {code} has {lots} lots and gives {gives}; {open} left of D({c})"
        ));
    }
    page.row(format!("    left of D({c}): {open}"));
}

/// Step 3: what is left of all D(c), and the codes that may give for it.
pub(super) fn step_three(page: &mut Page, book: &Book, settlement: &Settlement) {
    page.rows(
        "
Step 3. What is left is closed over all codes together (000, 2.3; 01, Expiry, step 3)
D is what is left of all D(c), with sign. Codes whose sound net after step 2 is opposite to D give,
each at most its net: their sections on the side of that net, over all such codes together,
smallest first, then lower section code. Codes with no sound lots left are not shown.",
    );
    let d: i64 = settlement.unclosed.iter().sum();
    page.row(format!("D = {d}"));
    if d == 0 {
        page.row("nothing is to be closed");
        return;
    }
    let nets = nets(book, &settlement.left_within);
    for (c, net) in nets.into_iter().enumerate() {
        sound_net(page, book, &settlement.left_within, c, net, d);
    }
    page.row("who gives");
    across_codes(page, book, settlement, d, nets);
}

/// A code with sound lots left after step 2: its sections, its net, and whether it
/// may give.
fn sound_net(page: &mut Page, book: &Book, left: &[i64], c: usize, net: i64, d: i64) {
    let sections = numbers(book, |i, section| {
        usize::from(section.settlement_code) == c && left[i] != 0
    });
    if sections.is_empty() {
        return;
    }
    page.row(format!("code {c}, sound lots left"));
    for i in sections {
        page.row(format!("    {} has {}", book.sections[i].code, left[i]));
    }
    let size = net.abs();
    page.row(match net.signum() == -d.signum() {
        true => format!("    the sound net is {net}, opposite to D: it may give {size}"),
        false => format!("    the sound net is {net}, not opposite to D: it gives nothing"),
    });
}

/// What each section of such a code, on the side of its net, gives of what step 2
/// left it.
fn across_codes(
    page: &mut Page,
    book: &Book,
    settlement: &Settlement,
    d: i64,
    mut nets: [i64; SETTLEMENT_CODES],
) {
    let left = &settlement.left_within;
    let mut givers = numbers(book, |i, section| {
        let net = nets[usize::from(section.settlement_code)];
        net.signum() == -d.signum() && left[i].signum() == -d.signum()
    });
    smallest_first(book, left, &mut givers);
    let mut open = d;
    let mut before = None;
    for i in givers {
        tie(page, book, left, before.replace(i), i);
        let section = &book.sections[i];
        let (code, c) = (section.code, usize::from(section.settlement_code));
        let lots = left[i].abs();
        let gives = lots - settlement.left[i].abs();
        open -= d.signum() * gives;
        nets[c] += d.signum() * gives;
        let net = nets[c].abs();
        page.row(format!(
            "    {code} of code {c} has {lots} lots and gives {gives}; {open} left of D, \
             {net} of the net of code {c}"
        ));
    }
    page.row(format!("left of D: {open}"));
}
