//! The calls: every refusal in its order, the limits on both sides, and what
//! an accepted call does.

mod common;

use common::{Lent, all_kept, book_of, opened};
use wheat_delivery::reading::book::{Book, Notice, Section, SessionKind};
use wheat_delivery::reading::calls::open;
use wheat_delivery::reading::refusal::Refusal;
use wheat_delivery::trial::hand::code;

fn numbers(faults: Vec<Refusal>) -> Vec<u8> {
    faults.into_iter().map(Refusal::number).collect()
}

/// Two sections, positions +5 and -5, a day session last, notices of section 1.
fn two() -> Book {
    book_of(
        &[(1, "A000001", 5, true), (2, "A000002", -5, true)],
        &[(1, 3, 2), (1, 4, 3)],
    )
}

/// So many sections without lots.
fn with_sections(count: usize) -> Book {
    let mut book = opened();
    for i in 0..count {
        let text = format!("S{i:06}");
        book.section((i % 64) as u8, true, code(&text), i as u32)
            .unwrap();
    }
    book
}

#[test]
fn an_opening_is_refused_by_lot_then_step_then_factor() {
    let number = |lot, w, r| open(lot, w, r).0.map_err(Refusal::number);
    assert_eq!(number(0, 0, 0), Err(2));
    assert_eq!(number(1_001, 101, 1), Err(2));
    assert_eq!(number(1, 0, 1), Err(3));
    assert_eq!(number(1, 1, 0), Err(3));
    assert_eq!(number(1, 1_000_001, 1), Err(3));
    assert_eq!(number(1, 1, 1_000_001), Err(3));
    assert_eq!(number(1, u32::MAX, u32::MAX), Err(3));
    assert_eq!(number(1, 1, 1_000_000), Err(4));
    assert_eq!(number(1, 1_000_000, 1), Err(4));
    assert_eq!(number(1_000, 1_000_000, 1_000_000), Ok(()));
    assert_eq!(number(1_000, 1_000_000, 10_000), Ok(()));
    assert_eq!(number(1_000, 1_000_000, 9_999), Err(4));
}

#[test]
fn an_opened_book_holds_its_contract_and_nothing_else() {
    let (_, book) = open(25, 2_500, 100);
    let noughts = Book::noughts();
    assert_eq!((book.lot, book.w, book.r), (25, 2_500, 100));
    let contract = Book {
        lot: 0,
        w: 0,
        r: 0,
        ..book
    };
    assert_eq!(contract, noughts);
}

#[test]
fn a_section_is_refused_in_the_order_5_6_7_8_9() {
    let mut book = with_sections(128);
    let held = book.sections[5].code;
    assert_eq!(numbers(book.section_faults(64, code("a000000"))), [6, 7, 9]);
    assert_eq!(numbers(book.section_faults(63, code("a000000"))), [7, 9]);
    assert_eq!(numbers(book.section_faults(64, held)), [6, 8, 9]);
    assert_eq!(numbers(book.section_faults(63, held)), [8, 9]);
    assert_eq!(numbers(book.section_faults(63, code("B000000"))), [9]);
    book.expired = true;
    assert_eq!(numbers(book.section_faults(64, held)), [5, 6, 8, 9]);
    assert_eq!(
        numbers(with_sections(127).section_faults(63, code("B000000"))),
        [0; 0]
    );
}

#[test]
fn a_section_code_has_only_digits_and_capitals_at_every_place() {
    let book = opened();
    for place in 0..7 {
        for byte in 0..=255 {
            let mut text = code("A000001");
            text.0[place] = byte;
            let allowed = (48..=57).contains(&byte) || (65..=90).contains(&byte);
            assert_eq!(book.section_faults(0, text).is_empty(), allowed);
        }
    }
}

#[test]
fn a_section_is_opened_with_its_values_and_its_condition_not_met() {
    let mut book = with_sections(3);
    book.section(63, true, code("ZZZZZZZ"), u32::MAX).unwrap();
    assert_eq!(book.sections_held, 4);
    let opened = Section {
        settlement_code: 63,
        code: code("ZZZZZZZ"),
        participant: u32::MAX,
        seller: true,
        condition_met: false,
        position: 0,
        basis: 0,
    };
    assert_eq!(book.sections[3], opened);
}

#[test]
fn a_trade_is_refused_in_the_order_5_10_to_15() {
    let mut book = two();
    book.trades_since = 2_000;
    assert_eq!(
        numbers(book.trade_faults(2, 2, 150, 10_001)),
        [10, 11, 12, 13, 15]
    );
    assert_eq!(numbers(book.trade_faults(0, 255, 150, 0)), [10, 12, 13, 15]);
    assert_eq!(
        numbers(book.trade_faults(1, 1, 0, u32::MAX)),
        [11, 12, 13, 14, 15]
    );
    assert_eq!(
        numbers(book.trade_faults(0, 1, 10_000_100, u32::MAX)),
        [12, 13, 14, 15]
    );
    assert_eq!(numbers(book.trade_faults(0, 1, 10_000_000, 0)), [13, 15]);
    assert_eq!(numbers(book.trade_faults(0, 1, 100, 10_000)), [15]);
    book.trades_since = 1_999;
    assert_eq!(numbers(book.trade_faults(0, 1, 100, 10_000)), [0; 0]);
    book.expired = true;
    assert_eq!(
        numbers(book.trade_faults(2, 2, 150, 10_001)),
        [5, 10, 11, 12, 13]
    );
}

#[test]
fn a_trade_price_is_a_multiple_of_r_within_its_limits() {
    let faults = |price| numbers(two().trade_faults(0, 1, price, 1));
    assert_eq!(faults(0), [12]);
    assert_eq!(faults(99), [12]);
    assert_eq!(faults(101), [12]);
    assert_eq!(faults(10_000_100), [12]);
    assert_eq!(faults(u32::MAX), [12]);
    assert_eq!(faults(100), [0; 0]);
    assert_eq!(faults(10_000_000), [0; 0]);
}

#[test]
fn a_trade_is_refused_14_by_either_position_and_not_at_its_limit() {
    let mut book = book_of(
        &[
            (1, "A000001", 999_999, true),
            (1, "A000002", -1_000_000, true),
            (1, "A000003", 1, true),
        ],
        &[],
    );
    assert_eq!(book.trade(0, 2, 100, 2), Err(Refusal::PositionLimit));
    assert_eq!(book.trade(2, 1, 100, 1), Err(Refusal::PositionLimit));
    assert_eq!(book.trade(1, 0, 100, 10_000), Ok(()));
    assert_eq!(book.trade(0, 1, 100, 10_000), Ok(()));
    assert_eq!(book.trade(0, 2, 100, 1), Ok(()));
    assert_eq!(book.sections[0].position, 1_000_000);
}

#[test]
fn a_trade_moves_lots_and_entry_values() {
    let (_, mut book) = open(25, 2_500, 100);
    book.section(1, false, code("A000001"), 1).unwrap();
    book.section(1, true, code("A000002"), 2).unwrap();
    book.trade(1, 0, 1_500_000, 7).unwrap();
    let worth = 7 * 37_500_000;
    assert_eq!(
        (book.sections[1].position, book.sections[1].basis),
        (7, worth)
    );
    assert_eq!(
        (book.sections[0].position, book.sections[0].basis),
        (-7, -worth)
    );
    assert_eq!(book.trades_since, 1);
}

#[test]
fn a_session_is_refused_in_the_order_5_16_17() {
    let mut book = two();
    assert_eq!(numbers(book.session_faults(0, 1)), [16, 17]);
    assert_eq!(numbers(book.session_faults(10_000_001, 1)), [16, 17]);
    assert_eq!(numbers(book.session_faults(1, 1)), [17]);
    assert_eq!(numbers(book.session_faults(10_000_000, 2)), [0; 0]);
    book.expired = true;
    assert_eq!(numbers(book.session_faults(0, 1)), [5, 16, 17]);
}

#[test]
fn a_session_pays_the_change_of_value_and_leaves_later_entries() {
    let mut book = two();
    book.trade(0, 1, 300, 2).unwrap();
    let mut margins = [9; 4];
    book.session(251, &mut margins).unwrap();
    let paid = 5 * (251 - 100) + 2 * (251 - 300);
    assert_eq!(margins, [paid, -paid, 9, 9]);
    assert_eq!(book.sections[0].basis, 7 * 251);
    assert_eq!(book.last_session, SessionKind::Evening);
    assert_eq!((book.last_price, book.trades_since), (251, 0));
}

#[test]
fn sessions_alternate_day_first() {
    let mut book = opened();
    for kind in [SessionKind::Day, SessionKind::Evening, SessionKind::Day] {
        book.session(5, &mut []).unwrap();
        assert_eq!(book.last_session, kind);
    }
}

#[test]
fn a_condition_is_refused_in_the_order_5_10_and_sets_the_mark() {
    let mut book = two();
    assert_eq!(numbers(book.condition_faults(2)), [10]);
    book.condition(1, false).unwrap();
    assert!(!book.sections[1].condition_met);
    book.condition(1, true).unwrap();
    assert_eq!(book, two());
    book.expired = true;
    assert_eq!(numbers(book.condition_faults(2)), [5, 10]);
}

#[test]
fn a_notice_is_refused_in_the_order_5_10_18_to_21() {
    let mut book = with_sections(8);
    for i in 0..256 {
        book.notice((i / 32) as u8, (i % 32) as u8, 1).unwrap();
    }
    assert_eq!(numbers(book.notice_faults(8, 32, 0)), [10, 18, 19, 21]);
    assert_eq!(numbers(book.notice_faults(7, 32, 0)), [18, 19, 21]);
    assert_eq!(numbers(book.notice_faults(7, 31, 1_000_001)), [19, 20, 21]);
    assert_eq!(numbers(book.notice_faults(7, 31, 1_000_000)), [20, 21]);
    book.section(0, true, code("NEW0000"), 0).unwrap();
    assert_eq!(numbers(book.notice_faults(8, 31, 1)), [21]);
    book.expired = true;
    assert_eq!(numbers(book.notice_faults(7, 31, 0)), [5, 19, 20, 21]);
    book.expired = false;
    book.notices_held = 255;
    book.notices[255] = Notice::default();
    assert_eq!(numbers(book.notice_faults(7, 31, 1_000_000)), [0; 0]);
}

#[test]
fn notices_are_kept_in_filing_order() {
    let mut book = two();
    book.notice(0, 31, 1_000_000).unwrap();
    let filed: Vec<_> = book
        .notices()
        .iter()
        .map(|n| (n.section, n.elevator, n.lots))
        .collect();
    assert_eq!(filed, [(1, 3, 2), (1, 4, 3), (0, 31, 1_000_000)]);
}

#[test]
fn an_expiry_is_refused_in_the_order_5_22_23_24() {
    let mut book = two();
    book.trades_since = 1;
    assert_eq!(numbers(book.expiry_faults(381, 1)), [22, 23, 24]);
    book.trades_since = 0;
    assert_eq!(numbers(book.expiry_faults(381, 1)), [23, 24]);
    assert_eq!(numbers(book.expiry_faults(382, 1)), [24]);
    assert_eq!(numbers(book.expiry_faults(382, 2)), [0; 0]);
    book.last_session = SessionKind::Evening;
    assert_eq!(numbers(book.expiry_faults(382, 2)), [22]);
    (book.last_session, book.last_price) = (SessionKind::None, 0);
    assert_eq!(numbers(book.expiry_faults(382, 2)), [22]);
    book.expired = true;
    assert_eq!(numbers(book.expiry_faults(381, 1)), [5, 22, 23, 24]);
}

#[test]
fn each_list_of_an_expiry_is_judged() {
    let answer = |register, sections| {
        let mut lent = Lent::new(register, sections);
        let mut book = two();
        let answer = book.expiry(lent.lend());
        assert!(answer.is_ok() || lent.is_untouched() && book == two());
        answer.map_err(Refusal::number)
    };
    assert_eq!(answer([381, 382, 382, 382], [2, 2, 2]), Err(23));
    assert_eq!(answer([382, 381, 382, 382], [2, 2, 2]), Err(23));
    assert_eq!(answer([382, 382, 381, 382], [2, 2, 2]), Err(23));
    assert_eq!(answer([382, 382, 382, 381], [1, 1, 1]), Err(23));
    assert_eq!(answer([382; 4], [1, 2, 2]), Err(24));
    assert_eq!(answer([382; 4], [2, 1, 2]), Err(24));
    assert_eq!(answer([382; 4], [2, 2, 1]), Err(24));
    assert_eq!(answer([382; 4], [2, 2, 2]), Ok(all_kept(2, 2)));
}

#[test]
fn an_expiry_changes_only_the_mark_and_leaves_entries_past_those_used() {
    let mut book = two();
    let mut lent = Lent::new([400; 4], [5, 6, 4]);
    assert_eq!(book.expiry(lent.lend()), Ok(all_kept(2, 2)));
    book.expired = false;
    assert_eq!(book, two());
    assert_eq!(lent.bytes[0][..3], [0, 0, 201]);
    assert_eq!(lent.bytes[1][..3], [4, 3, 202]);
    assert_eq!(lent.bytes[2][..3], [1, 1, 203]);
    assert_eq!(lent.lots[..3], [3, 2, 204]);
    assert_eq!(lent.delivered, [5, 5, 205, 205, 205]);
    assert_eq!(lent.terminated, [0, 0, 206, 206, 206, 206]);
    assert_eq!(lent.lapsed, [0, 0, 207, 207]);
}

#[test]
fn a_refused_call_leaves_the_book_and_the_lists() {
    let mut book = two();
    let mut margins = [3; 1];
    assert_eq!(
        book.section(0, true, code("A000001"), 0),
        Err(Refusal::CodeHeld)
    );
    assert_eq!(book.trade(0, 0, 100, 1), Err(Refusal::BuyerIsSeller));
    assert_eq!(
        book.session(100, &mut margins),
        Err(Refusal::MarginListShort)
    );
    assert_eq!(book.condition(2, true), Err(Refusal::UnknownSection));
    assert_eq!(book.notice(1, 3, 1), Err(Refusal::NoticeHeld));
    assert_eq!(margins, [3]);
    assert_eq!(book, two());
}
