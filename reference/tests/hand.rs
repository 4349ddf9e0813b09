//! Every case of document 01's "Checked by hand", starred or not.

mod common;

use common::{all_kept, book_of, expire, opened, without_lapsed};
use wheat_delivery::reading::calls::open;
use wheat_delivery::reading::expiry::passes::stage_one;
use wheat_delivery::reading::expiry::{Buyer, Offer, settle};
use wheat_delivery::reading::listing::listing;
use wheat_delivery::reading::refusal::Refusal;
use wheat_delivery::reading::value::{factor, value};
use wheat_delivery::trial::hand::{code, unstarred, worked};

#[test]
fn w_1_r_3_has_factor_33333_and_its_top_price_is_worth_3333300() {
    assert_eq!(factor(1, 3), 33_333);
    assert_eq!(value(10_000_000, 33_333), 3_333_300);
}

#[test]
fn w_2_r_3_has_factor_66667() {
    assert_eq!(factor(2, 3), 66_667);
}

#[test]
fn w_1_r_200000_has_factor_1_and_r_200001_is_refused_4() {
    assert_eq!(factor(1, 200_000), 1);
    assert_eq!(open(1, 1, 200_000).0, Ok(()));
    assert_eq!(open(1, 1, 200_001).0, Err(Refusal::Factor));
    assert_eq!(Refusal::Factor.number(), 4);
}

#[test]
fn w_100_r_1_opens_and_w_101_r_1_is_refused_4() {
    assert_eq!(open(1, 100, 1).0, Ok(()));
    assert_eq!(open(1, 101, 1).0, Err(Refusal::Factor));
}

#[test]
fn with_factor_1_values_turn_at_the_half() {
    assert_eq!(value(49_999, 1), 0);
    assert_eq!(value(50_000, 1), 1);
    assert_eq!(value(150_000, 1), 2);
}

#[test]
fn step_2_takes_two_of_four_and_the_rest_is_one_inside_one_outside() {
    let book = book_of(
        &[
            (1, "A000001", 5, false),
            (1, "A000002", -3, false),
            (1, "A000003", 1, true),
            (1, "A000004", -4, true),
            (2, "A000005", 1, true),
        ],
        &[],
    );
    let settlement = settle(&book);
    assert_eq!(settlement.terminated, [5, 3, 0, 2, 0]);
    assert_eq!(settlement.left[3], -2);
    assert_eq!(settlement.outside[3], -1);
    let expired = expire(&book).unwrap();
    assert_eq!(expired.delivered, [0, 0, 1, 2, 1]);
    assert_eq!(expired.register, [(2, 0, 3, 1), (4, 0, 3, 1)]);
    assert_eq!(expired.counts, all_kept(2, 2));
}

#[test]
fn step_3_takes_two_and_one_by_section_code() {
    let book = book_of(
        &[
            (3, "F000001", 3, false),
            (1, "A000001", -2, true),
            (2, "A000002", -2, true),
            (4, "B000001", 1, true),
        ],
        &[],
    );
    assert_eq!(expire(&book).unwrap().terminated, [3, 2, 1, 0]);
}

#[test]
fn step_3_takes_one_and_two_where_the_net_of_code_1_is_one() {
    let book = book_of(
        &[
            (3, "F000001", 3, false),
            (1, "A000001", -2, true),
            (2, "A000002", -2, true),
            (1, "B000001", 1, true),
        ],
        &[],
    );
    assert_eq!(expire(&book).unwrap().terminated, [3, 1, 2, 0]);
}

#[test]
fn stage_one_pairs_five_at_the_first_three_at_the_second_one_at_the_first() {
    let buyer = |section, lots| Buyer { section, lots };
    let offer = |elevator, lots| Offer {
        seller: 2,
        elevator,
        lots,
    };
    let book = book_of(
        &[
            (1, "A000001", 5, true),
            (1, "A000002", 4, true),
            (1, "A000003", -9, true),
        ],
        &[(2, 8, 6), (2, 9, 3)],
    );
    let pairs = stage_one(
        &book,
        &[buyer(0, 5), buyer(1, 4)],
        &[offer(8, 6), offer(9, 3)],
    );
    let formed: Vec<_> = pairs
        .iter()
        .map(|p| (p.buyer, p.elevator, p.lots))
        .collect();
    assert_eq!(formed, [(0, 8, 5), (1, 9, 3), (1, 8, 1)]);
    assert_eq!(expire(&book).unwrap().counts, all_kept(3, 3));
}

#[test]
fn the_fifteen_events_print_their_listing() {
    assert_eq!(worked().events.len(), 15);
    let file = worked().file();
    assert_eq!(file.len(), 271);
    assert_eq!(listing(&file), worked().prints);
}

/// The listing as document 01 has it.
const LISTING: &str = "\
register 3
A000001 0 A000002 2 50
A000001 4 B000001 2 50
A000001 1 B000001 1 25
A000001 5 0 2500000
A000002 2 0 -1000000
B000001 3 3 -2250000
C000001 0 3 750000
";

/// "Document 01's listing gains a column of noughts" (document 02, a).
#[test]
fn the_listing_of_document_01_gains_a_column_of_noughts() {
    let listing = listing(&worked().file());
    assert_eq!(without_lapsed(&listing), LISTING);
    let lapsed: Vec<&str> = listing
        .lines()
        .skip(4)
        .filter_map(|row| row.split(' ').nth(3))
        .collect();
    assert_eq!(lapsed, ["0"; 4]);
}

#[test]
fn every_claim_without_a_star_holds_of_its_file() {
    for case in unstarred() {
        assert_eq!(listing(&case.file()), case.prints, "{}", case.claim);
    }
}

#[test]
fn trap_both_values_are_rounded_and_not_the_price_change() {
    let (answer, mut book) = open(1, 1, 100_000);
    assert_eq!(answer, Ok(()));
    for text in ["A000001", "A000002"] {
        book.section(0, true, code(text), 0).unwrap();
    }
    book.trade(0, 1, 100_000, 1).unwrap();
    let mut margins = [0; 2];
    book.session(49_999, &mut margins).unwrap();
    assert_eq!(margins, [-1, 1]);
    book.session(50_000, &mut margins).unwrap();
    assert_eq!(margins, [1, -1]);
}

#[test]
fn trap_step_2_takes_the_smallest_section_first() {
    let book = book_of(
        &[
            (1, "A000001", 2, false),
            (1, "A000002", -3, true),
            (1, "A000003", -1, true),
            (1, "A000004", 2, true),
        ],
        &[],
    );
    assert_eq!(expire(&book).unwrap().terminated, [2, 1, 1, 0]);
}

#[test]
fn trap_a_split_section_is_not_sent_outside_whole() {
    let book = book_of(
        &[
            (1, "A000001", 3, true),
            (1, "A000002", -1, true),
            (2, "B000001", -2, true),
        ],
        &[],
    );
    let settlement = settle(&book);
    assert_eq!(settlement.outside, [2, 0, -2]);
    assert_eq!(
        expire(&book).unwrap().register,
        [(0, 0, 1, 1), (0, 0, 2, 2)]
    );
}

#[test]
fn the_book_of_the_tests_is_good() {
    assert!(opened().is_good());
}
