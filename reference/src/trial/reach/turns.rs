//! The turns of expiry, each with how an accepted file shows it.

use super::view::View;
use std::cmp::Reverse;

/// A turn: its name and whether an accepted file takes it.
pub type Turn = (&'static str, fn(&View) -> bool);

/// The turns, by step.
pub const TURNS: &[Turn] = &[
    ("margins: a margin is not 0", |v| {
        v.margin_sums.iter().any(|&m| m != 0)
    }),
    ("margins: rounding price changes would pay otherwise", |v| {
        v.margins_by_price_change() != v.margin_sums
    }),
    ("margins: an evening session", |v| v.sessions() > 1),
    (
        "margins: a section opened after a session",
        View::section_after_session,
    ),
    ("step 1: a condition alone fails a section", |v| {
        v.any_failing(|f| f == [true, false, false])
    }),
    ("step 1: the seller mark alone fails a short section", |v| {
        v.any_failing(|f| f == [false, true, false])
    }),
    ("step 1: the notices alone fail a short section", |v| {
        v.any_failing(|f| f == [false, false, true])
    }),
    ("step 1: all three fail a short section", |v| {
        v.any_failing(|f| f == [true, true, true])
    }),
    (
        "step 2: failing lots of one code offset each other",
        View::failing_offset_in_code,
    ),
    ("step 2: gave lots", |v| {
        v.gifts_within().iter().any(|&g| g > 0)
    }),
    ("step 2: several sections of one code gave", |v| {
        v.givers_of_a_code(&v.gifts_within()) > 1
    }),
    ("step 2: a section gave a part", |v| {
        v.gave_a_part(&v.sound(), &v.gifts_within())
    }),
    (
        "step 2: the sections of a code gave and ran out",
        View::ran_out_within,
    ),
    ("step 2: a tie was decided by code", |v| {
        v.within(&v.mirror(), |size| size) != v.settlement.left_within
    }),
    ("step 2: largest first would differ", |v| {
        v.within(&v.book, Reverse) != v.settlement.left_within
    }),
    (
        "step 3: leftovers of codes offset each other",
        View::leftovers_offset,
    ),
    (
        "step 3: leftovers of codes cancelled, nobody gave",
        View::leftovers_cancelled,
    ),
    ("step 3: gave lots", |v| {
        v.gifts_across().iter().any(|&g| g > 0)
    }),
    ("step 3: long sections gave", |v| v.side_gave(1)),
    ("step 3: short sections gave", |v| v.side_gave(-1)),
    ("step 3: several codes gave", |v| v.codes_giving().len() > 1),
    ("step 3: a section gave a part", |v| {
        v.gave_a_part(&v.settlement.left_within, &v.gifts_across())
    }),
    ("step 3: a code's net bound", |v| {
        v.across(&v.book, false, |i| v.size_within(i)) != v.settlement.left
    }),
    (
        "step 3: a code with a leftover of its own gave",
        View::gave_beside_own_leftover,
    ),
    ("step 3: a tie was decided by code", |v| {
        v.across(&v.mirror(), true, |i| v.size_within(i)) != v.settlement.left
    }),
    ("step 3: one code after another would differ", |v| {
        v.across(&v.book, true, |i| {
            (v.book.sections[i].settlement_code, v.size_within(i))
        }) != v.settlement.left
    }),
    ("step 3: the size before step 2 would differ", |v| {
        v.across(&v.book, true, |i| v.book.sections[i].position.abs()) != v.settlement.left
    }),
    ("step 3: largest first would differ", |v| {
        v.across(&v.book, true, |i| Reverse(v.size_within(i))) != v.settlement.left
    }),
    ("step 4: a code all inside", View::code_all_inside),
    ("step 4: a code all outside", View::code_all_outside),
    (
        "step 4: a net reached without a split",
        View::net_without_split,
    ),
    ("step 4: split a long section", |v| v.split(1)),
    ("step 4: split a short section", |v| v.split(-1)),
    ("step 4: several sections of one code outside", |v| {
        v.givers_of_a_code(&v.settlement.outside) > 1
    }),
    ("step 4: a tie was decided by code", |v| {
        v.outside(&v.mirror(), Reverse) != v.settlement.outside
    }),
    ("step 4: smallest first would differ", |v| {
        v.outside(&v.book, |size| size) != v.settlement.outside
    }),
    ("step 5: a notice split between inside and outside", |v| {
        v.any_notice(|d, _| d.inside > 0 && d.outside > 0)
    }),
    (
        "step 5: terminated lots came off the end of a notice",
        |v| v.any_notice(|d, lots| d.inside + d.outside > 0 && d.inside + d.outside < lots),
    ),
    (
        "step 5: a notice of a delivering section all terminated",
        |v| v.any_notice(|d, _| d.inside + d.outside == 0),
    ),
    (
        "step 5: another filing order would differ",
        View::filing_order_counts,
    ),
    ("step 5: outside lots first would differ", |v| {
        v.drawn(["outside", "inside"]) != v.settlement.drawn
    }),
    ("step 5: terminated lots first would differ", |v| {
        v.drawn(["terminated", "inside", "outside"]) != v.settlement.drawn
    }),
    ("step 6: a long section's notice was ignored", |v| {
        v.ignored_notice(1)
    }),
    (
        "step 6: a notice of a section without lots was ignored",
        |v| v.ignored_notice(0),
    ),
    ("step 6: an inside pass", |v| v.passes(true) > 0),
    ("step 6: several inside passes", |v| v.passes(true) > 1),
    ("step 6: an outside pass", |v| v.passes(false) > 0),
    ("step 6: both", |v| {
        v.passes(true) > 0 && v.passes(false) > 0
    }),
    ("stage one: a tie of buyers was decided by code", |v| {
        v.any_pass(|p| v.stage_one_buyers_turned(p) != p.lines)
    }),
    ("stage one: a tie of elevators was decided", |v| {
        v.any_pass(|p| v.stage_one_elevators_turned(p) != p.lines)
    }),
    ("stage one: a buyer finished first would differ", |v| {
        v.any_pass(|p| v.buyers_finished_first(p) != p.lines)
    }),
    (
        "stage one: by elevators' whole notices would differ",
        View::whole_notices_differ,
    ),
    ("stage two: a tie of pairs was decided by buyer code", |v| {
        v.any_pass(|p| v.stage_two_turned(p, 1) != p.lines)
    }),
    ("stage two: a tie of sellers was decided by code", |v| {
        v.any_pass(|p| v.stage_two_turned(p, -1) != p.lines)
    }),
    ("stage two: a tie of pairs was decided by elevator", |v| {
        v.any_pass(|p| v.stage_two_elevators_turned(p) != p.lines)
    }),
    ("stage two: pairs finished first would differ", |v| {
        v.any_pass(|p| v.pairs_finished_first(p) != p.lines)
    }),
    ("stage two: pairs in the order formed would differ", |v| {
        v.any_pass(|p| v.pairs_as_formed(p) != p.lines)
    }),
    ("stage two: pairs not chosen again would differ", |v| {
        v.any_pass(|p| v.pairs_in_turn(p) != p.lines)
    }),
    ("stage two: notices not chosen again would differ", |v| {
        v.any_pass(|p| v.notices_by_first_size(p) != p.lines)
    }),
    (
        "steps 2 to 6: ties decided by section number would differ",
        View::numbers_for_codes_differ,
    ),
    (
        "a buyer and an elevator met inside and outside",
        View::met_twice,
    ),
    (
        "the lines are as many as demand 3 allows",
        View::lines_at_bound,
    ),
    ("no line at all", |v| v.settlement.passes.is_empty()),
];
