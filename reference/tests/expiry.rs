//! The steps of expiry, beyond the cases checked by hand.

mod common;

use common::{all_kept, book_of, expire};
use wheat_delivery::reading::calls::Counts;
use wheat_delivery::reading::expiry::settle;

#[test]
fn a_book_without_sections_expires_with_no_line() {
    let expired = expire(&book_of(&[], &[])).unwrap();
    assert_eq!(expired.counts, Counts::default());
    assert!(expired.register.is_empty());
}

#[test]
fn a_section_fails_by_condition_mark_or_notices() {
    let rows = [
        (1, "A000001", 4, true),
        (1, "A000002", -1, true),
        (1, "A000003", -1, true),
        (1, "A000004", -1, true),
        (1, "A000005", -1, true),
    ];
    let notices = [(1, 0, 1), (2, 0, 1), (3, 0, 2), (4, 0, 1)];
    let mut book = book_of(&rows, &notices);
    book.sections[1].condition_met = false;
    book.sections[2].seller = false;
    book.sections[0].seller = false;
    let settlement = settle(&book);
    assert_eq!(settlement.failing, [false, true, true, true, false]);
    assert_eq!(settlement.terminated, [3, 1, 1, 1, 0]);
    assert_eq!(expire(&book).unwrap().register, [(0, 0, 4, 1)]);
}

#[test]
fn a_short_section_without_notices_fails_and_a_long_one_needs_none() {
    let mut book = book_of(&[(1, "A000001", 1, true), (1, "A000002", -1, true)], &[]);
    book.notices_held = 0;
    book.notices[0] = Default::default();
    assert_eq!(expire(&book).unwrap().terminated, [1, 1]);
}

#[test]
fn failing_lots_of_one_code_offset_each_other() {
    let book = book_of(
        &[
            (1, "A000001", 3, false),
            (1, "A000002", -3, false),
            (1, "A000003", 2, true),
            (1, "A000004", -2, true),
        ],
        &[],
    );
    assert_eq!(expire(&book).unwrap().terminated, [3, 3, 0, 0]);
}

#[test]
fn leftovers_of_two_codes_offset_each_other_before_anyone_gives() {
    let book = book_of(
        &[
            (1, "A000001", 3, false),
            (2, "A000002", -3, false),
            (3, "A000003", 2, true),
            (4, "A000004", -2, true),
        ],
        &[],
    );
    assert_eq!(expire(&book).unwrap().terminated, [3, 3, 0, 0]);
}

#[test]
fn step_2_decides_equal_sizes_by_section_code_and_not_by_number() {
    let book = book_of(
        &[
            (1, "A000009", 1, false),
            (1, "B000000", -1, true),
            (1, "A00000A", -1, true),
            (1, "A000001", 1, true),
        ],
        &[],
    );
    assert_eq!(expire(&book).unwrap().terminated, [1, 0, 1, 0]);
}

#[test]
fn step_3_goes_by_the_size_left_after_step_2() {
    // Code 1 closes its own +2 with two of A000003's four lots, so two are
    // left there, fewer than the three of A000004.
    let book = book_of(
        &[
            (1, "A000001", 2, false),
            (2, "A000002", 2, false),
            (1, "A000003", -4, true),
            (3, "A000004", -3, true),
            (4, "A000005", 3, true),
        ],
        &[],
    );
    assert_eq!(expire(&book).unwrap().terminated, [2, 2, 4, 0, 0]);
}

#[test]
fn a_code_with_a_leftover_of_its_own_may_give_in_step_3() {
    // Code 1 fails +1 with no sound short section, and its sound +2 is opposite
    // to D = 1 - 3.
    let book = book_of(
        &[
            (1, "A000001", 1, false),
            (1, "A000002", 2, true),
            (2, "A000003", -3, false),
        ],
        &[],
    );
    assert_eq!(expire(&book).unwrap().terminated, [1, 2, 3]);
}

#[test]
fn step_3_goes_over_all_codes_together() {
    let book = book_of(
        &[
            (9, "F000001", 3, false),
            (1, "A000001", -4, true),
            (2, "A000002", -1, true),
            (3, "A000003", -2, true),
            (4, "A000004", 4, true),
        ],
        &[],
    );
    assert_eq!(expire(&book).unwrap().terminated, [3, 0, 1, 2, 0]);
}

#[test]
fn step_4_marks_the_largest_first_and_equal_ones_by_section_code() {
    let book = book_of(
        &[
            (1, "A000003", 2, true),
            (1, "A000002", 2, true),
            (1, "A000001", 1, true),
            (1, "B000001", -2, true),
            (2, "B000002", -3, true),
        ],
        &[],
    );
    assert_eq!(settle(&book).outside, [1, 2, 0, 0, -3]);
}

#[test]
fn notices_are_drawn_inside_then_outside_and_terminated_off_the_end() {
    // Short 6: two terminated in step 2, one inside, three outside.
    let book = book_of(
        &[
            (1, "A000001", -6, true),
            (1, "A000002", 2, false),
            (1, "A000003", 1, true),
            (2, "A000004", 3, true),
        ],
        &[(0, 7, 2), (0, 3, 3), (0, 5, 1)],
    );
    let settlement = settle(&book);
    let drawn: Vec<_> = settlement
        .drawn
        .iter()
        .map(|d| (d.inside, d.outside))
        .collect();
    assert_eq!(drawn, [(1, 1), (0, 2), (0, 0)]);
    let expired = expire(&book).unwrap();
    assert_eq!(expired.register, [(2, 7, 0, 1), (3, 3, 0, 2), (3, 7, 0, 1)]);
    assert_eq!(expired.delivered, [4, 0, 1, 3]);
}

#[test]
fn inside_passes_run_by_code_number_and_the_outside_pass_last() {
    let book = book_of(
        &[
            (9, "A000001", 2, true),
            (9, "A000002", -1, true),
            (3, "A000003", 1, true),
            (3, "A000004", -2, true),
        ],
        &[],
    );
    let expired = expire(&book).unwrap();
    assert_eq!(expired.register, [(2, 0, 3, 1), (0, 0, 1, 1), (0, 0, 3, 1)]);
}

#[test]
fn an_elevators_lots_are_those_drawn_for_the_pass() {
    // Elevator 1 has nine lots noticed, but six are drawn outside.
    let book = book_of(
        &[
            (1, "A000001", 4, true),
            (1, "A000002", -4, true),
            (2, "A000003", 6, true),
            (3, "A000004", -6, true),
        ],
        &[(1, 1, 1), (1, 2, 3), (3, 1, 6)],
    );
    let expired = expire(&book).unwrap();
    assert_eq!(expired.register, [(0, 2, 1, 3), (0, 1, 1, 1), (2, 1, 3, 6)]);
}

#[test]
fn stage_one_decides_ties_by_buyer_code_and_lower_elevator() {
    let book = book_of(
        &[
            (1, "B000001", 2, true),
            (1, "A000001", 2, true),
            (1, "C000001", -4, true),
        ],
        &[(2, 9, 2), (2, 4, 2)],
    );
    let settlement = settle(&book);
    let pairs: Vec<_> = settlement.passes[0]
        .pairs
        .iter()
        .map(|p| (p.buyer, p.elevator))
        .collect();
    assert_eq!(pairs, [(1, 4), (0, 9)]);
}

#[test]
fn stage_two_decides_ties_of_pairs_by_buyer_code_then_elevator_and_sellers_by_code() {
    let book = book_of(
        &[
            (1, "B000001", 4, true),
            (1, "A000001", 2, true),
            (1, "D000001", -3, true),
            (1, "C000001", -3, true),
        ],
        &[(2, 5, 1), (2, 8, 2), (3, 5, 1), (3, 8, 2)],
    );
    // Pairs: B at 8 four; A at 5 two. Lines: B first, then a tie of two and
    // two, where A comes first.
    let expired = expire(&book).unwrap();
    assert_eq!(
        expired.register,
        [(0, 8, 3, 2), (1, 5, 3, 1), (0, 8, 2, 2), (1, 5, 2, 1)],
    );
}

#[test]
fn stage_two_chooses_again_among_all_pairs_after_each_line() {
    // Pairs 5 and 4 at one elevator; notices 3, 3, 3. After the first line 2
    // are left of the five, so the four come next.
    let book = book_of(
        &[
            (1, "A000001", 5, true),
            (1, "A000002", 4, true),
            (1, "S000001", -3, true),
            (1, "S000002", -3, true),
            (1, "S000003", -3, true),
        ],
        &[(2, 6, 3), (3, 6, 3), (4, 6, 3)],
    );
    let expired = expire(&book).unwrap();
    assert_eq!(
        expired.register,
        [(0, 6, 2, 3), (1, 6, 3, 3), (0, 6, 4, 2), (1, 6, 4, 1)],
    );
    assert_eq!(expired.counts, all_kept(2, 4));
}

#[test]
fn notices_of_long_sections_and_of_sections_without_lots_are_ignored() {
    let rows = [
        (1, "A000001", 2, true),
        (1, "A000002", -2, true),
        (1, "A000003", 0, true),
    ];
    let own = book_of(&rows, &[(1, 5, 2)]);
    let more = book_of(&rows, &[(0, 5, 9), (2, 5, 9), (1, 5, 2)]);
    assert_eq!(expire(&own).unwrap(), expire(&more).unwrap());
}

#[test]
fn a_buyer_and_an_elevator_that_meet_inside_and_outside_are_two_pairs() {
    let book = book_of(
        &[
            (1, "A000001", 3, true),
            (1, "A000002", -1, true),
            (2, "A000003", -2, true),
        ],
        &[],
    );
    assert_eq!(expire(&book).unwrap().counts, all_kept(2, 2));
}
