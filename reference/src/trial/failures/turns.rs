//! What a case for the program `failures` can reach, by group.

use super::view::{Argument, Step, View};
use crate::reading::book::{Book, NOTICES, SECTIONS, SessionKind};

/// The name of what is reached, and whether a case does.
pub(super) type Turn = (&'static str, fn(&View) -> bool);

pub(super) const GROUPS: [(&str, &[Turn]); 7] = [
    ("the counts", COUNTS),
    ("so many named, with counts", NAMED),
    ("the section asked, with counts", ASKED),
    ("refused", REFUSED),
    ("arguments, with counts", KNOWN),
    ("arguments that mean no section", UNKNOWN),
    ("files, with counts", FILES),
];

const COUNTS: &[Turn] = &[
    ("all three", |v| above_nought(v) == Some([true; 3])),
    ("in full alone", |v| {
        above_nought(v) == Some([true, false, false])
    }),
    ("in part alone", |v| {
        above_nought(v) == Some([false, true, false])
    }),
    ("not at all alone", |v| {
        above_nought(v) == Some([false, false, true])
    }),
    ("in full and in part", |v| {
        above_nought(v) == Some([true, true, false])
    }),
    ("in full and not at all", |v| {
        above_nought(v) == Some([true, false, true])
    }),
    ("in part and not at all", |v| {
        above_nought(v) == Some([false, true, true])
    }),
];

const NAMED: &[Turn] = &[
    ("none", |v| counted(v, 0)),
    ("1", |v| counted(v, 1)),
    ("2", |v| counted(v, 2)),
    ("3", |v| counted(v, 3)),
    ("4", |v| counted(v, 4)),
    ("5", |v| counted(v, 5)),
    ("6", |v| counted(v, 6)),
    ("7", |v| counted(v, 7)),
    ("8", |v| counted(v, 8)),
    ("9", |v| counted(v, 9)),
    ("10", |v| counted(v, 10)),
    ("a flat section among them", |v| {
        v.any_named(|section| section.position == 0)
    }),
    ("one that is set as met", |v| {
        v.any_named(|section| section.condition_met)
    }),
    ("one that is set as not met", |v| {
        v.any_named(|section| !section.condition_met)
    }),
];

const ASKED: &[Turn] = &[
    ("long", |v| v.asked().is_some_and(|s| s.position > 0)),
    ("short", |v| v.asked().is_some_and(|s| s.position < 0)),
    ("flat", |v| v.asked().is_some_and(|s| s.position == 0)),
    ("flat, its condition not met", |v| {
        let unmet = v
            .asked()
            .is_some_and(|s| s.position == 0 && !s.condition_met);
        unmet && !asked_is_named(v)
    }),
    ("named too", asked_is_named),
    ("named too, all three counts", |v| {
        asked_is_named(v) && above_nought(v) == Some([true; 3])
    }),
    ("not named, all three counts", |v| {
        !asked_is_named(v) && above_nought(v) == Some([true; 3])
    }),
    ("with lapsed lots in a pattern", |v| v.lapses.any),
    ("not in full for lapsed lots alone", |v| v.lapses.from_full),
    ("not in part for lapsed lots", |v| v.lapses.from_part),
];

const REFUSED: &[Turn] = &[
    ("with 2", |v| v.answer == Err(2)),
    ("with 3", |v| v.answer == Err(3)),
    ("with 4", |v| v.answer == Err(4)),
    ("with 25", |v| v.answer == Err(25)),
    ("with 10 for the section asked alone", |v| {
        v.answer == Err(10) && !v.named_is_unknown()
    }),
    ("with 10 for a section named alone", |v| {
        v.answer == Err(10) && !v.asked_is_unknown()
    }),
    ("with 10 before 40 for their count", |v| {
        v.answer == Err(10) && v.is_too_many()
    }),
    ("with 10 before 40 for one twice", |v| {
        v.answer == Err(10) && v.is_twice(|_, _| true)
    }),
    ("with 40 for their count alone", |v| {
        v.answer == Err(40) && !v.is_twice(|_, _| true)
    }),
    ("with 40 for 11 named", |v| {
        v.answer == Err(40) && v.named().len() == 11
    }),
    ("with 40 for one twice alone", |v| {
        v.answer == Err(40) && !v.is_too_many()
    }),
    ("with 40 for one by code and by number", |v| {
        let other = |a: &Argument, b: &Argument| a.is_code() != b.is_code();
        v.answer == Err(40) && !v.is_too_many() && v.is_twice(other)
    }),
];

const KNOWN: &[Turn] = &[
    ("asked by code", |v| {
        v.is_counted() && v.arguments[0].is_code()
    }),
    ("asked by number", |v| {
        v.is_counted() && v.arguments[0].is_number()
    }),
    ("named by code", |v| {
        v.is_counted() && v.named().iter().any(Argument::is_code)
    }),
    ("named by number", |v| {
        v.is_counted() && v.named().iter().any(Argument::is_number)
    }),
    ("noughts in front", |v| {
        v.is_counted() && v.arguments.iter().any(Argument::has_noughts_in_front)
    }),
    ("a code of digits alone", |v| {
        let mut arguments = v.arguments.iter();
        v.is_counted() && arguments.any(|a| a.is_code() && a.is_digits())
    }),
];

const UNKNOWN: &[Turn] = &[
    ("an empty one", |v| v.any_unknown(|a| a.text.is_empty())),
    ("the number of the sections held", |v| {
        v.any_unknown(|a| a.is_number() && a.text == v.held().to_string())
    }),
    ("a number that goes round to one held", |v| {
        v.any_unknown(|a| a.goes_round(v.held()))
    }),
    ("a number with a sign", |v| {
        v.any_unknown(|a| a.text.starts_with(['+', '-']) && a.text.len() != 7)
    }),
    ("seven digits, no code", |v| {
        v.any_unknown(|a| a.is_code() && a.is_digits())
    }),
    ("another code that is not held", |v| {
        v.any_unknown(|a| a.is_code() && !a.is_digits())
    }),
    ("neither code nor number", |v| {
        v.any_unknown(|a| !a.is_code() && !a.is_digits() && !a.text.is_empty())
    }),
];

const FILES: &[Turn] = &[
    ("an expiry", |v| {
        v.any_step(|step| matches!(step, Step::Expiry(_)))
    }),
    (
        "one that would be accepted, and accepted events after it",
        |v| v.goes_on_after_expiry(),
    ),
    ("no expiry", |v| {
        v.is_counted() && !v.any_step(|step| matches!(step, Step::Expiry(_)))
    }),
    ("refused events", |v| {
        v.any_step(|step| *step == Step::Refused)
    }),
    ("events that do not read", |v| {
        v.any_step(|step| *step == Step::Unreadable)
    }),
    ("no session", |v| {
        ends(v, |b| b.last_session == SessionKind::None)
    }),
    ("a day session last", |v| {
        ends(v, |b| {
            b.last_session == SessionKind::Day && b.trades_since == 0
        })
    }),
    ("an evening session last", |v| {
        ends(v, |b| {
            b.last_session == SessionKind::Evening && b.trades_since == 0
        })
    }),
    ("trades after the last session", |v| {
        ends(v, |b| {
            b.last_session != SessionKind::None && b.trades_since > 0
        })
    }),
    ("128 sections and 256 notices, 10 named", |v| {
        let full = |b: &Book| b.sections_held == SECTIONS && b.notices_held == NOTICES;
        counted(v, 10) && v.book_has(full)
    }),
];

/// Which counts are above 0.
fn above_nought(view: &View) -> Option<[bool; 3]> {
    let counts = view.answer.ok()?;
    Some(counts.map(|count| count > 0))
}

/// So many are named, and counts are given.
fn counted(view: &View, named: usize) -> bool {
    view.is_counted() && view.named().len() == named
}

/// Counts are given, and the section asked is named.
fn asked_is_named(view: &View) -> bool {
    let asked = view.arguments[0].section;
    view.is_counted() && view.named().iter().any(|named| named.section == asked)
}

/// Counts are given of a book with lots, which ends so.
fn ends(view: &View, so: impl Fn(&Book) -> bool) -> bool {
    view.book_has(|book| book.sections().iter().any(|s| s.position != 0) && so(book))
}
