//! Tests of the other ways: with the right order they come to the settlement.

use super::view::View;
use crate::reading::book::Book;
use crate::reading::calls::REGISTER;
use crate::reading::expiry;
use crate::reading::file::whole;
use crate::trial::generate;
use std::cmp::Reverse;

fn accepted_views() -> impl Iterator<Item = View> {
    (0..1_200).filter_map(|seed| {
        let file = generate::file(seed);
        let accepted = whole::run(&file, REGISTER, 128).ok()?;
        Some(View::new(&file, accepted))
    })
}

#[test]
fn the_other_ways_with_the_right_order_are_the_settlement() {
    for view in accepted_views() {
        let settlement = &view.settlement;
        assert_eq!(view.within(&view.book, |size| size), settlement.left_within);
        assert_eq!(
            view.across(&view.book, true, |i| view.size_within(i)),
            settlement.left
        );
        assert_eq!(view.outside(&view.book, Reverse), settlement.outside);
        assert_eq!(
            view.drawn(["inside", "outside", "terminated"]),
            settlement.drawn
        );
    }
}

/// Lot by lot, each time from the smallest section that may give.
fn smallest_giver(view: &View, left: &[i64], sign: i64, may: impl Fn(usize) -> bool) -> usize {
    let givers = view
        .sections()
        .filter(|&i| left[i].signum() == sign && may(i));
    let smallest = givers.min_by_key(|&i| (left[i].abs(), view.book.sections[i].code));
    smallest.expect("a section that may give")
}

#[test]
fn steps_2_and_3_lot_by_lot_give_the_same() {
    for view in accepted_views() {
        let mut left = view.sound();
        if left.iter().map(|lots| lots.abs()).sum::<i64>() > 2_000 {
            continue;
        }
        let unclosed = view.settlement.unclosed;
        for (c, failed) in view.settlement.failed.iter().enumerate() {
            for _ in 0..(failed - unclosed[c]).abs() {
                let giver = smallest_giver(&view, &left, -failed.signum(), |i| view.code(i) == c);
                left[giver] += failed.signum();
            }
        }
        assert_eq!(left, view.settlement.left_within);
        let d: i64 = unclosed.iter().sum();
        for _ in 0..d.abs() {
            let nets = expiry::nets(&view.book, &left);
            let opposite = |i: usize| nets[view.code(i)].signum() == -d.signum();
            let giver = smallest_giver(&view, &left, -d.signum(), opposite);
            left[giver] += d.signum();
        }
        assert_eq!(left, view.settlement.left);
    }
}

#[test]
fn the_lines_kept_are_the_register_and_all_are_within_the_limit() {
    for view in accepted_views() {
        let kept = view.removal.lines.iter().filter(|line| line.is_kept());
        assert!(kept.map(|kept| &kept.line).eq(&view.settlement.register));
        assert!(!view.removal.passes_limit(false, false));
    }
}

#[test]
fn a_mirrored_book_turns_the_order_of_its_codes() {
    for view in accepted_views().take(50) {
        let mirror = view.mirror();
        let order = |book: &Book| {
            let mut sections: Vec<usize> = view.sections().collect();
            sections.sort_by_key(|&i| book.sections[i].code);
            sections
        };
        let mut turned = order(&mirror);
        turned.reverse();
        assert_eq!(order(&view.book), turned);
    }
}
