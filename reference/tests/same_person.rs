//! The same person on both sides (document 02, a), worked by hand, and what
//! holds of every file.

mod common;

use common::{Expired, Lent, Row, all_kept, book_of, expire, without_lapsed};
use std::fmt::Write;
use wheat_delivery::reading::book::{Book, SECTIONS, SessionKind};
use wheat_delivery::reading::calls::{Counts, REGISTER};
use wheat_delivery::reading::file::event::Event;
use wheat_delivery::reading::file::whole::{Accepted, read, run};
use wheat_delivery::reading::file::{self, Reader, write};
use wheat_delivery::reading::listing::{Lists, listing};
use wheat_delivery::reading::refusal::Refusal;
use wheat_delivery::trial::examples::shared;
use wheat_delivery::trial::generate;
use wheat_delivery::trial::hand::{condition, notice, section, session, trade};

/// A book for its expiry whose sections have these participants.
fn book(rows: &[Row], notices: &[(u8, u8, u32)], participants: &[u32]) -> Book {
    let mut book = book_of(rows, notices);
    for (section, &participant) in book.sections.iter_mut().zip(participants) {
        section.participant = participant;
    }
    book
}

/// Its expiry.
fn expired(rows: &[Row], notices: &[(u8, u8, u32)], participants: &[u32]) -> Expired {
    expire(&book(rows, notices, participants)).unwrap()
}

fn counts(pairs: usize, lines: usize, kept: usize) -> Counts {
    Counts { pairs, lines, kept }
}

/// One buyer and one seller of two lots.
const TWO: [Row; 2] = [(1, "A000001", 2, true), (1, "A000002", -2, true)];

#[test]
fn one_person_behind_the_only_buyer_and_the_only_seller_keeps_no_line() {
    let expired = expired(&TWO, &[], &[9, 9]);
    assert_eq!(expired.counts, counts(1, 1, 0));
    assert!(expired.register.is_empty());
    assert_eq!(expired.delivered, [0, 0]);
    assert_eq!(expired.terminated, [0, 0]);
    assert_eq!(expired.lapsed, [2, 2]);
}

#[test]
fn the_listing_then_has_a_register_of_no_line() {
    let mut events = vec![
        section(1, false, "A000001", 9),
        section(1, true, "A000002", 9),
        trade(0, 1, 100, 2),
        session(150),
        condition(0, true),
        condition(1, true),
        notice(1, 3, 2),
        Event::Expiry,
    ];
    let listed = |events: &[Event]| listing(&write(10, 1, 1, events).unwrap());
    let one = "register 0\nA000001 0 0 2 100\nA000002 0 0 2 -100\n";
    assert_eq!(listed(&events), one);
    events[1] = section(1, true, "A000002", 8);
    let two = "register 1\nA000001 3 A000002 2 20\nA000001 2 0 0 100\nA000002 2 0 0 -100\n";
    assert_eq!(listed(&events), two);
}

#[test]
fn every_number_is_a_participants_0_too() {
    for same in [0, 1, 7, u32::MAX] {
        assert_eq!(expired(&TWO, &[], &[same; 2]).lapsed, [2, 2], "{same}");
    }
    let bits = (0..32).map(|bit| 1 << bit);
    for other in bits.chain([u32::MAX, 0x00FF_FFFF, 0xFFFF_FF00]) {
        for participants in [[0, other], [other, 0], [u32::MAX, other - 1]] {
            let expired = expired(&TWO, &[], &participants);
            assert_eq!(expired.counts, all_kept(1, 1), "{participants:?}");
            assert_eq!(expired.register, [(0, 0, 1, 2)]);
            assert_eq!(
                (expired.delivered, expired.lapsed),
                (vec![2; 2], vec![0; 2])
            );
        }
    }
}

/// Buyers 5, 3 and 1 of sellers 5, 3 and 1 at one elevator each: the second is
/// one person's on both sides.
#[test]
fn a_line_between_two_is_removed_and_the_later_one_moves_up() {
    let rows = [
        (1, "A000001", 5, true),
        (1, "A000002", 3, true),
        (1, "A000003", 1, true),
        (1, "B000001", -5, true),
        (1, "B000002", -3, true),
        (1, "B000003", -1, true),
    ];
    let notices = [(3, 6, 5), (4, 7, 3), (5, 8, 1)];
    let all = expired(&rows, &notices, &[1, 2, 3, 4, 5, 6]);
    assert_eq!(all.register, [(0, 6, 3, 5), (1, 7, 4, 3), (2, 8, 5, 1)]);
    let some = expired(&rows, &notices, &[1, 2, 3, 4, 2, 6]);
    assert_eq!(some.counts, counts(3, 3, 2));
    assert_eq!(some.register, [(0, 6, 3, 5), (2, 8, 5, 1)]);
    assert_eq!(some.delivered, [5, 0, 1, 5, 0, 1]);
    assert_eq!(some.lapsed, [0, 3, 0, 0, 3, 0]);
    let first = expired(&rows, &notices, &[1, 2, 3, 1, 5, 6]);
    assert_eq!(first.register, [(1, 7, 4, 3), (2, 8, 5, 1)]);
    let last = expired(&rows, &notices, &[1, 2, 3, 4, 5, 3]);
    assert_eq!(last.register, [(0, 6, 3, 5), (1, 7, 4, 3)]);
    let none = expired(&rows, &notices, &[1, 2, 3, 1, 2, 3]);
    assert_eq!(none.counts, counts(3, 3, 0));
    assert_eq!(none.lapsed, [5, 3, 1, 5, 3, 1]);
}

#[test]
fn the_shared_example_lists_what_is_said_of_it() {
    assert_eq!(listing(&shared().file()), shared().prints);
    assert_eq!(shared().file().len(), 16 + 17 * 18);
}

/// Long 6: one lot is given for the failing -1, two are sold by the buyer's own
/// person and three by another's.
#[test]
fn a_long_section_can_have_lots_of_all_three_kinds() {
    let rows = [
        (1, "A000001", 6, true),
        (1, "A000002", -1, false),
        (1, "A000003", -2, true),
        (1, "A000004", -3, true),
    ];
    let expired = expired(&rows, &[], &[5, 6, 5, 7]);
    assert_eq!(expired.register, [(0, 0, 3, 3)]);
    assert_eq!(expired.delivered, [3, 0, 0, 3]);
    assert_eq!(expired.terminated, [1, 1, 0, 0]);
    assert_eq!(expired.lapsed, [2, 0, 2, 0]);
    assert_eq!(expired.counts, counts(1, 2, 1));
}

/// Code 3 is inside: its lines come first. What lapses inside and outside is one
/// sum for the buyer and for the seller, whose only line kept is the last.
#[test]
fn lines_are_removed_inside_and_outside_and_their_lots_summed() {
    let rows = [
        (3, "A000001", 5, true),
        (3, "A000002", -2, true),
        (4, "A000003", -3, true),
        (4, "A000004", -1, true),
        (5, "A000005", 1, true),
    ];
    let notices = [(1, 0, 2), (2, 1, 3), (3, 2, 1)];
    let expired = expired(&rows, &notices, &[8, 8, 8, 9, 8]);
    assert_eq!(expired.counts, counts(3, 3, 1));
    assert_eq!(expired.register, [(4, 2, 3, 1)]);
    assert_eq!(expired.delivered, [0, 0, 0, 1, 1]);
    assert_eq!(expired.lapsed, [5, 2, 3, 0, 0]);
}

/// One elevator, buyers and sellers of one lot each: the ties put A000001 with
/// B000001 and A000002 with B000002.
fn two_by_two(participants: &[u32; 4]) -> Expired {
    let rows = [
        (1, "A000001", 1, true),
        (1, "A000002", 1, true),
        (1, "B000001", -1, true),
        (1, "B000002", -1, true),
    ];
    let notices = [(2, 0, 1), (3, 0, 1)];
    expired(&rows, &notices, participants)
}

/// Each line is one person's; crosswise none would be.
#[test]
fn removed_lots_are_not_put_together_again() {
    let expired = two_by_two(&[1, 2, 1, 2]);
    assert_eq!(expired.counts, counts(2, 2, 0));
    assert_eq!(expired.lapsed, [1, 1, 1, 1]);
}

/// With the persons crosswise both buy and sell, in different lines.
#[test]
fn a_person_who_buys_and_sells_in_different_lines_keeps_both() {
    let expired = two_by_two(&[1, 2, 2, 1]);
    assert_eq!(expired.counts, all_kept(2, 2));
    assert_eq!(expired.lapsed, [0, 0, 0, 0]);
}

/// One person's sections fail or give lots as before: only lines are removed.
#[test]
fn terminated_lots_are_not_looked_at() {
    let rows = [
        (1, "A000001", 2, false),
        (1, "A000002", -3, true),
        (1, "A000003", 1, true),
    ];
    let expired = expired(&rows, &[], &[4, 4, 5]);
    assert_eq!(expired.register, [(2, 0, 1, 1)]);
    assert_eq!(expired.terminated, [2, 2, 0]);
    assert_eq!(expired.lapsed, [0, 0, 0]);
}

/// The book of the shared example, just before its expiry.
fn before_expiry() -> Book {
    let file = shared().file();
    let mut book = run(&file, REGISTER, SECTIONS).unwrap().book;
    book.expired = false;
    book
}

#[test]
fn entries_past_the_lines_kept_and_past_the_sections_remain() {
    let mut book = before_expiry();
    let mut lent = Lent::new([382, 383, 384, 400], [7, 5, 6]);
    assert_eq!(book.expiry(lent.lend()), Ok(counts(3, 3, 2)));
    let past = |list: &[u8], byte: u8| list[2..].iter().all(|&entry| entry == byte);
    assert_eq!(lent.bytes[0][..2], [0, 4]);
    assert_eq!(lent.bytes[1][..2], [0, 1]);
    assert_eq!(lent.bytes[2][..2], [1, 2]);
    assert!(past(&lent.bytes[0], 201) && past(&lent.bytes[1], 202) && past(&lent.bytes[2], 203));
    assert_eq!(lent.lots[..2], [2, 1]);
    assert!(lent.lots[2..].iter().all(|&entry| entry == 204));
    assert_eq!(lent.delivered, [2, 2, 1, 0, 1, 205, 205]);
    assert_eq!(lent.terminated, [0, 0, 3, 3, 0]);
    assert_eq!(lent.lapsed, [2, 0, 2, 0, 0, 207]);
    book.expired = false;
    assert_eq!(book, before_expiry());
}

#[test]
fn a_lapsed_list_that_is_short_is_24_after_5_22_and_23() {
    let answer = |change: fn(&mut Book), register: usize, sections: [usize; 3]| {
        let mut book = before_expiry();
        change(&mut book);
        let before = book.clone();
        let mut lent = Lent::new([register; 4], sections);
        let answer = book.expiry(lent.lend()).map_err(Refusal::number);
        assert!(answer.is_ok() || lent.is_untouched() && book == before);
        answer
    };
    assert_eq!(answer(|_| (), 382, [5, 5, 4]), Err(24));
    assert_eq!(answer(|_| (), 382, [5, 5, 0]), Err(24));
    assert_eq!(answer(|_| (), 382, [4, 4, 5]), Err(24));
    assert_eq!(answer(|_| (), 382, [5, 5, 5]), Ok(counts(3, 3, 2)));
    assert_eq!(answer(|_| (), 381, [5, 5, 4]), Err(23));
    let evening = |book: &mut Book| book.last_session = SessionKind::Evening;
    assert_eq!(answer(evening, 381, [5, 5, 4]), Err(22));
    let ended = |book: &mut Book| book.expired = true;
    assert_eq!(answer(ended, 381, [5, 5, 4]), Err(5));
    let broken = |book: &mut Book| book.lot = 0;
    assert_eq!(answer(broken, 381, [5, 5, 4]), Err(1));
}

/// 382 entries are asked for though two lines are kept; a read's lapsed list is
/// judged at its expiry.
#[test]
fn a_read_judges_its_lapsed_list_at_the_expiry_and_writes_it() {
    let answer = |file: &[u8], register: usize, lapsed: usize| {
        let mut lists = Lists::full();
        lists.buyers.truncate(register);
        lists.lapsed = vec![77; lapsed];
        let reading = read(file, lists.lend());
        let number = reading.answer.map_err(Refusal::number);
        assert!(number.is_ok() || lists.lapsed == vec![77; lapsed]);
        (number, reading.place, lists.lapsed)
    };
    let file = shared().file();
    assert_eq!(answer(&file, 382, 4), (Err(24), 17, vec![77; 4]));
    assert_eq!(answer(&file, 381, 4), (Err(23), 17, vec![77; 4]));
    let lapsed = vec![2, 0, 2, 0, 0, 77];
    assert_eq!(answer(&file, 382, 6), (Ok(counts(3, 3, 2)), 18, lapsed));
    let mut bad = file.clone();
    bad[16 + 16] = 0;
    assert_eq!(answer(&bad, 0, 0), (Err(26), 16, vec![]));
}

/// The events of a file of the right size, up to the first that does not read.
fn events_of(file: &[u8]) -> Vec<Event> {
    let mut reader = Reader::new(file);
    std::iter::from_fn(|| reader.read().event.ok()).collect()
}

/// The file with each section's participant changed, given its place.
fn with_participants(file: &[u8], change: impl Fn(u32, u32) -> u32) -> Vec<u8> {
    let mut events = events_of(file);
    for (place, event) in (0..).zip(&mut events) {
        if let Event::Section { participant, .. } = event {
            *participant = change(place, *participant);
        }
    }
    let (lot, w, r) = file::contract_in(file);
    write(lot, w, r, &events).unwrap()
}

/// The accepted files of some seeds.
fn accepted_files(seeds: u64) -> impl Iterator<Item = Vec<u8>> {
    let files = (0..seeds).map(generate::file);
    files.filter(|file| run(file, REGISTER, SECTIONS).is_ok())
}

/// Document 01's listing, which knows nothing of participants: all lines formed,
/// and what the method leaves of each position is delivered.
fn listing_of_document_01(file: &[u8]) -> String {
    let Accepted {
        book,
        settlement,
        margin_sums,
        ..
    } = run(file, REGISTER, SECTIONS).unwrap();
    let code = |section: usize| book.sections[section].code;
    let mut text = format!("register {}\n", settlement.lines().count());
    for line in settlement.lines() {
        let (buyer, seller, lots) = (code(line.buyer), code(line.seller), line.lots);
        let tonnes = lots * i64::from(book.lot);
        writeln!(text, "{buyer} {} {seller} {lots} {tonnes}", line.elevator).unwrap();
    }
    for (i, margins) in margin_sums.iter().enumerate() {
        let (position, left) = (book.sections[i].position.abs(), settlement.left[i].abs());
        writeln!(text, "{} {left} {} {margins}", code(i), position - left).unwrap();
    }
    text
}

/// Old boxes: where no two sections are one person's, the listing is document
/// 01's with a column of noughts.
#[test]
fn with_all_participants_different_the_listing_is_document_01s_but_for_noughts() {
    let (mut apart, mut lines) = (0, 0);
    for file in accepted_files(1_600) {
        let different = with_participants(&file, |place, _| u32::MAX - 50 * place);
        let listed = listing(&different);
        assert_eq!(without_lapsed(&listed), listing_of_document_01(&different));
        let accepted = run(&different, REGISTER, SECTIONS).unwrap();
        assert!(accepted.settlement.lapsed.iter().all(|&lots| lots == 0));
        assert_eq!(listing_of_document_01(&file), without_lapsed(&listed));
        apart += usize::from(listing(&file) == listed);
        lines += accepted.settlement.register.len();
    }
    assert!(apart > 100, "{apart} files had no line to remove");
    assert!(lines > 10_000, "{lines} lines");
}

/// The lines, their order and the pairs are those formed without participants;
/// the register is those of them whose sections have different numbers.
#[test]
fn participants_decide_what_is_kept_and_nothing_else() {
    let mut removed = 0;
    for file in accepted_files(800) {
        let one = with_participants(&file, |_, _| 3);
        let [shared, one] = [&file, &one].map(|file| run(file, REGISTER, SECTIONS).unwrap());
        let (some, none) = (&shared.settlement, &one.settlement);
        assert_eq!(some.passes, none.passes);
        assert!(none.register.is_empty());
        assert_eq!(none.delivered, vec![0; one.book.sections_held]);
        assert_eq!(some.terminated, none.terminated);
        let participant = |section: usize| shared.book.sections[section].participant;
        let kept = some
            .lines()
            .filter(|line| participant(line.buyer) != participant(line.seller));
        assert!(kept.eq(&some.register));
        removed += some.lines().count() - some.register.len();
    }
    assert!(removed > 2_000, "{removed} lines removed");
}
