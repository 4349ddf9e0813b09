//! Refusal 1: every call judges the book it is given, before all else.

mod common;

use common::{Lent, book_of};
use wheat_delivery::reading::block::Trades;
use wheat_delivery::reading::book::{Book, NOTICES, Notice, SECTIONS, Section, SessionKind};
use wheat_delivery::reading::calls::open;
use wheat_delivery::reading::label::LabelLists;
use wheat_delivery::reading::listing::Lists;
use wheat_delivery::reading::refusal::Refusal;
use wheat_delivery::trial::hand::code;

/// A good book with two sections, two notices, a session and a trade since.
fn good() -> Book {
    let mut book = book_of(
        &[(1, "A000001", 5, true), (2, "A000002", -5, true)],
        &[(1, 3, 2), (1, 4, 3)],
    );
    book.trades_since = 1;
    book
}

/// Makes every call, faulty in its own values too, with lists too short, and
/// says whether each refuses 1 and leaves the book and the lists.
fn every_call_refuses_1(book: &Book) -> bool {
    let mut given = book.clone();
    let mut margins = [77; 0];
    let mut lent = Lent::new([0; 4], [0; 3]);
    let mut full = Lent::new([382; 4], [128; 3]);
    let mut full_margins = [77; 128];
    let mut block_answers = [77; 2];
    let block = Trades {
        buyers: &[0, 9],
        sellers: &[1, 9],
        prices: &[100, 0],
        lots: &[1, 0],
    };
    let answers = [
        given.section(0, true, code("Z000001"), 9),
        given.section(64, true, code("a000001"), 9),
        given.trade(0, 1, 100, 1),
        given.trade(9, 9, 0, 0),
        given.session(100, &mut full_margins),
        given.session(0, &mut margins),
        given.condition(0, true),
        given.condition(255, true),
        given.notice(1, 5, 1),
        given.notice(255, 255, 0),
        given.expiry(full.lend()).map(|_| ()),
        given.expiry(lent.lend()).map(|_| ()),
        given.block(block, &mut block_answers),
        given.block(block, &mut block_answers[..1]),
    ];
    answers
        .iter()
        .all(|answer| *answer == Err(Refusal::BrokenBook))
        && given == *book
        && full_margins == [77; 128]
        && block_answers == [77; 2]
        && full.is_untouched()
        && label_refuses_1(book)
}

/// The same of the label, which is lent nothing to write.
fn label_refuses_1(book: &Book) -> bool {
    let lists = Lists::full();
    let fit = LabelLists::of(&lists, 0);
    let labels = [fit, LabelLists { lots: &[0], ..fit }].map(|lists| book.label(lists));
    labels.map(|label| (label.number, label.count)) == [(1, 0); 2]
}

/// Whether the good book, changed in one thing, is refused with 1 by every call.
fn breaks(change: impl Fn(&mut Book)) -> bool {
    let mut book = good();
    change(&mut book);
    assert!(!book.is_good());
    every_call_refuses_1(&book)
}

#[test]
fn a_good_book_is_not_refused_1() {
    assert!(good().is_good());
    assert!(good().condition(0, true).is_ok());
}

#[test]
fn the_book_of_noughts_is_refused_1_by_every_call() {
    assert!(every_call_refuses_1(&Book::noughts()));
}

#[test]
fn a_refused_opening_hands_out_the_book_of_noughts() {
    let (answer, book) = open(0, 1, 1);
    assert_eq!(answer, Err(Refusal::LotSize));
    assert_eq!(book, Book::noughts());
}

#[test]
fn the_limits_of_the_opening_are_rules_of_the_book() {
    assert!(breaks(|b| b.lot = 0));
    assert!(breaks(|b| b.lot = 1_001));
    assert!(breaks(|b| b.w = 0));
    assert!(breaks(|b| b.w = 1_000_001));
    assert!(breaks(|b| b.r = 0));
    assert!(breaks(|b| b.r = 1_000_001));
    assert!(breaks(|b| (b.w, b.r) = (1, 200_001)));
    assert!(breaks(|b| (b.w, b.r) = (101, 1)));
}

#[test]
fn the_numbers_held_have_limits() {
    assert!(breaks(|b| b.sections_held = SECTIONS + 1));
    assert!(breaks(|b| b.sections_held = usize::MAX));
    assert!(breaks(|b| b.notices_held = NOTICES + 1));
    assert!(breaks(|b| b.notices_held = usize::MAX));
    assert!(breaks(|b| b.trades_since = 2_001));
    assert!(breaks(|b| b.trades_since = u32::MAX));
}

#[test]
fn a_session_has_a_price_and_no_session_has_none() {
    assert!(breaks(|b| b.last_price = 0));
    assert!(breaks(|b| b.last_price = 10_000_001));
    assert!(breaks(|b| b.last_session = SessionKind::None));
    assert!(breaks(
        |b| (b.last_session, b.last_price) = (SessionKind::Evening, 0)
    ));
}

#[test]
fn a_section_keeps_its_own_limits() {
    assert!(breaks(|b| b.sections[0].settlement_code = 64));
    assert!(breaks(|b| b.sections[0].code = code("A00000a")));
    assert!(breaks(|b| b.sections[0].code = code("A00000/")));
    assert!(breaks(|b| b.sections[1].code = b.sections[0].code));
}

#[test]
fn positions_are_within_their_limit_and_sum_to_zero() {
    let positions = |first: i64, second: i64| {
        move |b: &mut Book| {
            b.sections[0].position = first;
            b.sections[1].position = second;
        }
    };
    assert!(breaks(positions(1_000_001, -1_000_001)));
    assert!(breaks(positions(5, -4)));
    assert!(breaks(positions(i64::MAX, i64::MIN)));
    assert!(breaks(positions(i64::MIN, i64::MIN)));
    let mut book = good();
    positions(1_000_000, -1_000_000)(&mut book);
    assert!(book.is_good());
}

#[test]
fn bases_are_within_the_limit_of_the_trades_since_and_sum_to_zero() {
    let bases = |trades: u32, first: i64, second: i64| {
        move |b: &mut Book| {
            b.trades_since = trades;
            b.sections[0].basis = first;
            b.sections[1].basis = second;
        }
    };
    let limit = |trades: i64| 1_000_000_000_000_000 + 10_000_000_000_000 * trades;
    for trades in [0, 1, 2_000] {
        let most = limit(i64::from(trades));
        assert!(breaks(bases(trades, most + 1, -most - 1)));
        assert!(breaks(bases(trades, -most - 1, most + 1)));
        let mut book = good();
        bases(trades, most, -most)(&mut book);
        assert!(book.is_good(), "the trades behind a basis are not judged");
    }
    assert!(breaks(bases(0, 1, 0)));
    assert!(breaks(bases(0, i64::MIN, i64::MIN)));
}

#[test]
fn a_notice_keeps_its_own_limits() {
    assert!(breaks(|b| b.notices[0].section = 2));
    assert!(breaks(|b| b.notices[0].section = 255));
    assert!(breaks(|b| b.notices[0].elevator = 32));
    assert!(breaks(|b| b.notices[0].lots = 0));
    assert!(breaks(|b| b.notices[0].lots = 1_000_001));
    assert!(breaks(|b| b.notices[1].elevator = 3));
}

#[test]
fn places_beyond_those_held_are_noughts() {
    let section = |change: fn(&mut Section)| move |b: &mut Book| change(&mut b.sections[2]);
    assert!(breaks(section(|s| s.settlement_code = 1)));
    assert!(breaks(section(|s| s.code.0[6] = b'0')));
    assert!(breaks(section(|s| s.participant = 1)));
    assert!(breaks(section(|s| s.seller = true)));
    assert!(breaks(section(|s| s.condition_met = true)));
    assert!(breaks(section(|s| s.position = 1)));
    assert!(breaks(section(|s| s.basis = 1)));
    assert!(breaks(|b| b.sections[127].seller = true));
    let notice = |change: fn(&mut Notice)| move |b: &mut Book| change(&mut b.notices[2]);
    assert!(breaks(notice(|n| n.section = 1)));
    assert!(breaks(notice(|n| n.elevator = 1)));
    assert!(breaks(notice(|n| n.lots = 1)));
    assert!(breaks(|b| b.notices[255].lots = 1));
    assert!(breaks(|b| b.sections_held = 1));
    assert!(breaks(|b| b.notices_held = 1));
}

#[test]
fn an_expired_book_is_judged_too_and_needs_no_day_session() {
    assert!(breaks(|b| {
        b.expired = true;
        b.lot = 0;
    }));
    let mut book = good();
    book.expired = true;
    (book.last_session, book.last_price) = (SessionKind::Evening, 7);
    assert_eq!(book.condition(0, true), Err(Refusal::Expired));
}

#[test]
fn histories_that_could_not_have_been_are_not_judged() {
    let (_, mut book) = open(1, 1, 1);
    book.trades_since = 2_000;
    assert!(book.is_good());
    let mut book = good();
    (book.last_session, book.last_price, book.trades_since) = (SessionKind::None, 0, 0);
    assert!(book.is_good());
}

#[test]
fn a_session_price_need_not_be_a_multiple_of_r() {
    let mut book = good();
    book.last_price = 101;
    assert!(book.is_good());
}
