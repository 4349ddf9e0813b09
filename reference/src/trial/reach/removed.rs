//! The turns of what is removed (document 02, a), each with how an accepted file
//! shows it.

use super::turns::Turn;
use crate::trial::removal::Formed;

/// The turns: of the lines, of their participants, and of the lapsed lots.
pub const REMOVED: &[Turn] = &[
    ("removed: a line", |v| v.removal.removed() > 0),
    ("removed: none of several lines", |v| {
        v.removal.removed() == 0 && v.removal.kept() > 1
    }),
    ("removed: the first line, others kept", |v| {
        v.removal.first()
    }),
    ("removed: a line between two kept ones", |v| {
        v.removal.between()
    }),
    ("removed: lines in a row between two kept ones", |v| {
        v.removal.between_in_a_row()
    }),
    ("removed: the last line, others kept", |v| v.removal.last()),
    ("removed: all of several lines", |v| v.removal.all()),
    ("removed: the only line", |v| {
        v.removal.lines.len() == 1 && v.removal.removed() == 1
    }),
    ("removed: a line of an inside pass", |v| {
        v.removal.any_removed(|line| line.inside)
    }),
    ("removed: a line of the outside pass", |v| {
        v.removal.any_removed(|line| !line.inside)
    }),
    ("removed: inside, a line kept outside", |v| {
        v.removal.any_removed(|line| line.inside)
            && v.removal.any(|line| line.is_kept() && !line.inside)
    }),
    ("removed: participants 0", |v| {
        v.removal.any_removed(|line| line.participants[0] == 0)
    }),
    ("removed: participants 4,294,967,295", |v| {
        v.removal
            .any_removed(|line| line.participants[0] == u32::MAX)
    }),
    ("kept: participants 0 and another", |v| {
        v.removal
            .any(|line| line.is_kept() && line.participants.contains(&0))
    }),
    ("kept: participants unlike in byte 0 alone", |v| {
        v.removal.any(|line| unlike_within(line, 0x0000_00FF))
    }),
    ("kept: participants unlike in byte 1 alone", |v| {
        v.removal.any(|line| unlike_within(line, 0x0000_FF00))
    }),
    ("kept: participants unlike in byte 2 alone", |v| {
        v.removal.any(|line| unlike_within(line, 0x00FF_0000))
    }),
    ("kept: participants unlike in byte 3 alone", |v| {
        v.removal.any(|line| unlike_within(line, 0xFF00_0000))
    }),
    ("kept: participants unlike in the highest bit alone", |v| {
        v.removal.any(|line| unlike_within(line, 0x8000_0000))
    }),
    ("lapsed: a long section with all three lots", |v| {
        v.removal.any_section(|l| l.long && l.kinds() == [true; 3])
    }),
    ("lapsed: a short section with all three lots", |v| {
        v.removal.any_section(|l| !l.long && l.kinds() == [true; 3])
    }),
    ("lapsed: all lots of a long section", |v| {
        v.removal.any_section(|l| l.long && l.lapsed_alone())
    }),
    ("lapsed: all lots of a short section", |v| {
        v.removal.any_section(|l| !l.long && l.lapsed_alone())
    }),
    (
        "lapsed: a section with no delivered lots, and terminated ones",
        |v| v.removal.any_section(|l| l.kinds() == [false, true, true]),
    ),
    (
        "lapsed: a section with no terminated lots, and delivered ones",
        |v| v.removal.any_section(|l| l.kinds() == [true, false, true]),
    ),
    ("lapsed: the lots of several lines in one section", |v| {
        v.removal.any_sum(|lines| lines.len() > 1)
    }),
    ("lapsed: lots inside and outside in one section", |v| {
        v.removal.any_sum(|lines| {
            lines.iter().any(|line| line.inside) && lines.iter().any(|line| !line.inside)
        })
    }),
    ("lapsed: all that a notice drew", |v| {
        v.removal.notices().iter().any(|[kept, _]| *kept == 0)
    }),
    ("lapsed: a part of what a notice drew", |v| {
        let mut notices = v.removal.notices().into_iter();
        notices.any(|[kept, removed]| kept > 0 && removed > 0)
    }),
    (
        "lapsed: a line limit without its long sections would be passed",
        |v| v.removal.passes_limit(true, false),
    ),
    (
        "lapsed: a line limit without its notices would be passed",
        |v| v.removal.passes_limit(false, true),
    ),
];

/// A line whose two participants differ, and only in these bits.
fn unlike_within(line: &Formed, bits: u32) -> bool {
    let unlike = line.participants[0] ^ line.participants[1];
    unlike != 0 && unlike & !bits == 0
}
