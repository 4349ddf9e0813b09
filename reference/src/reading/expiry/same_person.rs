//! The same person on both sides (document 02, a). 001 ends the obligations of a
//! contract where those to buy and to sell arose "at one and the same person", by
//! the person's code.

use super::{Line, Pass};
use crate::reading::book::Book;

/// "A line whose buyer and seller share a participant shall be formed as before
/// and then taken out, the later lines moving up": the lines removed and those
/// kept, both in the order formed. Every number is a participant's, 0 too.
pub(super) fn parted(book: &Book, passes: &[Pass]) -> (Vec<Line>, Vec<Line>) {
    let participant = |section: usize| book.sections[section].participant;
    let lines = passes.iter().flat_map(|pass| &pass.lines);
    lines.partition(|line| participant(line.buyer) == participant(line.seller))
}

/// The lots of each section in some lines, as buyer or as seller. Those in the
/// removed ones "go to a third section list, "lapsed"".
pub(super) fn lots_in(lines: &[Line], sections: usize) -> Vec<u32> {
    let mut lots = vec![0; sections];
    for line in lines {
        for section in [line.buyer, line.seller] {
            lots[section] += u32::try_from(line.lots).expect("lots of a line");
        }
    }
    lots
}
