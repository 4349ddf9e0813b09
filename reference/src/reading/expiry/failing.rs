//! Steps 1 to 3: the sections that fail, and the lots given for them.

use super::{code, nets, on_side, settlement_code};
use crate::reading::book::{Book, SETTLEMENT_CODES};

/// Step 1: "A section fails (000, 2.1) if its condition is not met, or it is
/// short without the seller mark, or (ours) it is short and its notices do not
/// sum to its lots."
pub(super) fn fails(book: &Book, number: usize) -> bool {
    let section = &book.sections[number];
    let short = section.position < 0;
    !section.condition_met
        || short && (!section.seller || noticed(book, number) != -section.position)
}

/// The sum of a section's notices.
pub fn noticed(book: &Book, section: usize) -> i64 {
    let own = book
        .notices()
        .iter()
        .filter(|n| usize::from(n.section) == section);
    own.map(|n| i64::from(n.lots)).sum()
}

/// The positions of the sound sections, 0 for those that fail.
pub(super) fn sound_lots(book: &Book, failing: &[bool]) -> Vec<i64> {
    let sections = book.sections().iter().zip(failing);
    sections
        .map(|(s, &fails)| if fails { 0 } else { s.position })
        .collect()
}

/// Step 2: "D(c) is the sum of failing positions of code c."
pub(super) fn failed_nets(book: &Book, failing: &[bool]) -> [i64; SETTLEMENT_CODES] {
    let mut failed = [0; SETTLEMENT_CODES];
    for (section, _) in book
        .sections()
        .iter()
        .zip(failing)
        .filter(|(_, fails)| **fails)
    {
        failed[usize::from(section.settlement_code)] += section.position;
    }
    failed
}

/// Both move towards zero by the lots given.
fn give(giver: &mut i64, open: &mut i64, lots: i64) {
    *giver -= giver.signum() * lots;
    *open -= open.signum() * lots;
}

/// Step 2: "Sound sections of c on the opposite side give lots until D(c) is
/// closed or they run out: smallest first, then lower section code by bytes
/// (2.2)." Returns what is left of every D(c).
pub fn give_within_codes(
    book: &Book,
    failed: &[i64; SETTLEMENT_CODES],
    left: &mut [i64],
) -> [i64; SETTLEMENT_CODES] {
    let mut unclosed = *failed;
    for (c, open) in unclosed.iter_mut().enumerate() {
        let mut givers = on_side(left, -open.signum());
        givers.retain(|&i| settlement_code(book, i) == c);
        givers.sort_by_key(|&i| (left[i].abs(), code(book, i)));
        for i in givers {
            let lots = left[i].abs().min(open.abs());
            give(&mut left[i], open, lots);
        }
    }
    unclosed
}

/// Step 3: "If it is not zero, take the codes whose remaining sound net is
/// opposite to D. Their sections on the side of that net give lots over all
/// such codes together, by remaining size ascending, then section code; no
/// code gives more than its net, all together exactly the size of D (2.3)."
pub fn give_across_codes(book: &Book, d: i64, left: &mut [i64]) {
    let mut open = d;
    let mut nets = nets(book, left);
    let mut givers = on_side(left, -d.signum());
    givers.retain(|&i| nets[settlement_code(book, i)].signum() == -d.signum());
    givers.sort_by_key(|&i| (left[i].abs(), code(book, i)));
    for i in givers {
        let net = &mut nets[settlement_code(book, i)];
        let lots = left[i].abs().min(net.abs()).min(open.abs());
        *net -= net.signum() * lots;
        give(&mut left[i], &mut open, lots);
    }
}
