//! The byte count of the listing: numbers worked by hand, the refusals, the fullest
//! listing, any lists held against the listing's bytes, and the program.

mod common;

use common::programs::given;
use common::{book_of, without_lapsed};
use wheat_delivery::reading::book::{Book, SECTIONS, SectionCode, SessionKind};
use wheat_delivery::reading::calls::{REGISTER, open};
use wheat_delivery::reading::file::whole::read;
use wheat_delivery::reading::label::{Label, LabelLists, of_file, refused_bytes};
use wheat_delivery::reading::listing::{Lists, listing, of_book};
use wheat_delivery::trial::examples::{examples, shared};
use wheat_delivery::trial::generate::file;
use wheat_delivery::trial::hand::{unstarred, worked};
use wheat_delivery::trial::label::inputs;
use wheat_delivery::trial::random::Random;

const LABEL: &str = env!("CARGO_BIN_EXE_label");

/// A lot of 25 tonnes, a buyer, a seller and a section without lots.
fn three() -> Book {
    book_of(
        &[
            (1, "A000001", 5, true),
            (2, "A000002", -5, true),
            (3, "A000003", 0, true),
        ],
        &[],
    )
}

/// So many lines of one lot from section 1 to section 0 at elevator 0, and noughts
/// for so many sections.
fn lists(lines: usize, sections: usize) -> Lists {
    Lists {
        buyers: vec![0; lines],
        elevators: vec![0; lines],
        sellers: vec![1; lines],
        lots: vec![1; lines],
        delivered: vec![0; sections],
        terminated: vec![0; sections],
        lapsed: vec![0; sections],
        margin_sums: vec![0; sections],
    }
}

/// The answer to the lists as they are, whatever their lengths.
fn label(book: &Book, lists: &Lists) -> Label {
    book.label(LabelLists {
        buyers: &lists.buyers,
        elevators: &lists.elevators,
        sellers: &lists.sellers,
        lots: &lists.lots,
        delivered: &lists.delivered,
        terminated: &lists.terminated,
        lapsed: &lists.lapsed,
        margin_sums: &lists.margin_sums,
    })
}

/// The count of an accepted call.
fn count(book: &Book, lists: &Lists) -> usize {
    let label = label(book, lists);
    assert_eq!(label.number, 0);
    label.count
}

/// `register 1`, `A000001 0 A000002 1 25` and three rows like `A000001 0 0 0 0`.
const LEAST: usize = 11 + 23 + 3 * 16;

/// The bytes beyond these, with a change of the lists and a lot of so many tonnes.
fn beyond(lot: u32, change: impl Fn(&mut Lists)) -> i64 {
    let (mut book, mut lists) = (three(), lists(1, 3));
    book.lot = lot;
    change(&mut lists);
    count(&book, &lists) as i64 - LEAST as i64
}

#[test]
fn the_worked_example_by_hand() {
    let rows = worked().prints.lines().map(|row| row.len() + 1);
    assert!(rows.eq([11, 23, 23, 23, 22, 23, 23, 21]));
    assert_eq!(of_file(&worked().file()), 169);
    assert_eq!(of_file(&shared().file()), 167);
}

/// The open points, with the worked example's book and lists.
#[test]
fn the_worked_example_with_other_lists_or_before_its_expiry() {
    let mut whole = Lists::full();
    let mut book = read(&worked().file(), whole.lend()).book;
    assert_eq!((whole.lots.len(), label(&book, &whole)), (382, refused(39)));
    let bytes = |book: &Book, lists: &Lists| book.label(LabelLists::of(lists, 3)).count;
    assert_eq!(bytes(&book, &whole), 169);
    book.expired = false;
    assert_eq!(bytes(&book, &whole), 169);
    let mut five = whole.clone();
    five.delivered.truncate(5);
    (five.delivered[4], five.lapsed[4], five.margin_sums[4]) = (10, 10, -1);
    assert_eq!(bytes(&book, &five), 169);
    whole.delivered[0] = u32::MAX;
    assert_eq!(bytes(&book, &whole), 178);
    assert_eq!(without_lapsed(worked().prints).len(), 161);
}

#[test]
fn a_line_and_three_sections_by_hand() {
    assert_eq!(count(&three(), &lists(1, 3)), 82);
    assert_eq!(beyond(25, |_| ()), 0);
}

#[test]
fn the_line_count_has_its_digits_and_each_line_a_row() {
    let rows = [
        (0, 11),
        (1, 11 + 23),
        (9, 11 + 9 * 23),
        (10, 12 + 10 * 23),
        (99, 12 + 99 * 23),
        (100, 13 + 100 * 23),
        (382, 13 + 382 * 23),
    ];
    for (lines, bytes) in rows {
        assert_eq!(count(&three(), &lists(lines, 3)), bytes + 48, "{lines}");
    }
}

#[test]
fn the_lots_and_the_tonnes_of_a_line_have_their_digits() {
    let more = |lot: u32, lots: u32| beyond(lot, |lists| lists.lots[0] = lots);
    // 225, 250, 2,475, 2,500, 24,999,975 and 25,000,000 tonnes.
    assert_eq!([9, 10, 99, 100].map(|lots| more(25, lots)), [1, 2, 3, 4]);
    assert_eq!([999_999, 1_000_000].map(|lots| more(25, lots)), [11, 12]);
    // As many tonnes as lots.
    assert_eq!(
        [1, 9, 10, 99, 100].map(|lots| more(1, lots)),
        [-1, -1, 1, 1, 3]
    );
    assert_eq!([999_999, 1_000_000].map(|lots| more(1, lots)), [9, 11]);
    // 1,000, 999,999,000 and 1,000,000,000 tonnes.
    assert_eq!(
        [1, 999_999, 1_000_000].map(|lots| more(1_000, lots)),
        [2, 12, 14]
    );
    // 9, 10, 99, 100, 999,999 and 1,000,000 tonnes.
    assert_eq!((more(3, 3), more(5, 2)), (-1, 0));
    assert_eq!((more(11, 9), more(50, 2)), (0, 1));
    assert_eq!((more(999, 1_001), more(1_000, 1_000)), (7, 8));
}

#[test]
fn an_elevator_has_one_digit_or_two() {
    let more = |elevator: u8| beyond(25, |lists| lists.elevators[0] = elevator);
    assert_eq!([0, 9, 10, 31].map(more), [0, 0, 1, 1]);
}

#[test]
fn the_lots_of_each_section_have_their_digits() {
    let numbers = [9, 10, 99, 100, 999_999, 1_000_000, 4_294_967_295];
    for section in 0..3 {
        let delivered = |lots| beyond(25, |lists| lists.delivered[section] = lots);
        let terminated = |lots| beyond(25, |lists| lists.terminated[section] = lots);
        let lapsed = |lots| beyond(25, |lists| lists.lapsed[section] = lots);
        for more in [
            numbers.map(delivered),
            numbers.map(terminated),
            numbers.map(lapsed),
        ] {
            assert_eq!(more, [0, 1, 1, 2, 5, 6, 9]);
        }
    }
}

#[test]
fn the_sum_of_each_section_has_its_sign_and_digits() {
    for section in 0..3 {
        let more = |sum: i64| beyond(25, |lists| lists.margin_sums[section] = sum);
        assert_eq!([0, 9, 10, 99, 100].map(more), [0, 0, 1, 1, 2]);
        assert_eq!([-1, -9, -10, -99, -100].map(more), [1, 1, 2, 2, 3]);
        assert_eq!([999_999, 1_000_000].map(more), [5, 6]);
        assert_eq!([-999_999, -1_000_000].map(more), [6, 7]);
        assert_eq!([i64::MAX, -i64::MAX, i64::MIN].map(more), [18, 19, 19]);
        assert_eq!([4_294_967_295, 4_294_967_296].map(more), [9, 9]);
    }
}

#[test]
fn every_number_of_lots_that_a_line_may_have() {
    let mut book = three();
    for lot in [7, 1_000] {
        book.lot = lot;
        let numbers: Vec<u32> = (1..=1_000_000).collect();
        for lots in numbers.chunks(REGISTER) {
            let mut lists = lists(lots.len(), 3);
            lists.lots = lots.to_vec();
            let listing = of_book(&book, lots.len(), &lists);
            assert_eq!(count(&book, &lists), listing.len(), "from {} on", lots[0]);
        }
    }
}

#[test]
fn a_refused_row_by_hand() {
    // `refused 4 0`, `refused 25 0`, `refused 20 14` and `refused 27 3800`.
    assert_eq!(refused_bytes(4, 0), 12);
    assert_eq!(refused_bytes(25, 0), 13);
    assert_eq!(refused_bytes(20, 14), 14);
    assert_eq!(refused_bytes(27, 3_800), 16);
    let places = [9, 10, 99, 100, 999, 1_000];
    assert_eq!(
        places.map(|place| refused_bytes(9, place)),
        [12, 13, 13, 14, 14, 15]
    );
    assert_eq!(
        places.map(|place| refused_bytes(10, place)),
        [13, 14, 14, 15, 15, 16]
    );
    assert_eq!(of_file(b""), 13);
}

/// Whether the call refuses 39 where one thing is changed, and not before.
fn is_turned_away(change: impl Fn(&mut Lists)) -> bool {
    let mut lists = lists(3, 3);
    assert_eq!(label(&three(), &lists).number, 0);
    change(&mut lists);
    label(&three(), &lists) == refused(39)
}

fn refused(number: u8) -> Label {
    Label { number, count: 0 }
}

#[test]
fn register_lists_that_differ_in_length_are_turned_away() {
    assert!(is_turned_away(|l| l.buyers.push(0)));
    assert!(is_turned_away(|l| l.elevators.push(0)));
    assert!(is_turned_away(|l| l.sellers.push(1)));
    assert!(is_turned_away(|l| l.lots.push(1)));
    assert!(is_turned_away(|l| l.buyers.truncate(2)));
    assert!(is_turned_away(|l| l.elevators.truncate(2)));
    assert!(is_turned_away(|l| l.sellers.truncate(2)));
    assert!(is_turned_away(|l| l.lots.truncate(2)));
    assert!(is_turned_away(|l| l.buyers.clear()));
    assert!(is_turned_away(|l| l.lots.clear()));
}

#[test]
fn more_than_382_lines_are_turned_away() {
    assert_eq!(label(&three(), &lists(382, 3)).number, 0);
    for lines in [383, 384, 1_000, 65_536] {
        assert_eq!(label(&three(), &lists(lines, 3)), refused(39));
    }
}

#[test]
fn a_row_that_names_what_is_not_there_is_turned_away() {
    for row in 0..3 {
        for section in [3, 127, 128, 255] {
            assert!(is_turned_away(|l| l.buyers[row] = section));
            assert!(is_turned_away(|l| l.sellers[row] = section));
        }
        for elevator in [32, 99, 100, 255] {
            assert!(is_turned_away(|l| l.elevators[row] = elevator));
        }
        for lots in [0, 1_000_001, u32::MAX] {
            assert!(is_turned_away(|l| l.lots[row] = lots));
        }
    }
    let mut fit = lists(3, 3);
    (fit.buyers[0], fit.sellers[0], fit.elevators[1]) = (2, 2, 31);
    assert_eq!(label(&three(), &fit).number, 0, "a buyer may be the seller");
}

#[test]
fn a_section_list_that_is_short_is_turned_away() {
    assert!(is_turned_away(|l| l.delivered.truncate(2)));
    assert!(is_turned_away(|l| l.terminated.truncate(2)));
    assert!(is_turned_away(|l| l.lapsed.truncate(2)));
    assert!(is_turned_away(|l| l.margin_sums.truncate(2)));
    assert!(is_turned_away(|l| l.delivered.clear()));
    assert!(is_turned_away(|l| l.margin_sums.clear()));
    assert_eq!(label(&three(), &lists(0, 2)), refused(39));
}

#[test]
fn a_book_that_breaks_a_rule_is_1_before_39() {
    let mut broken = three();
    broken.lot = 0;
    for given in [lists(1, 3), lists(383, 0), Lists::full()] {
        assert_eq!(label(&broken, &given), refused(1));
        assert_eq!(label(&Book::noughts(), &given), refused(1));
    }
    let mut too_many = three();
    too_many.sections_held = SECTIONS + 1;
    assert_eq!(label(&too_many, &lists(1, SECTIONS + 1)), refused(1));
}

#[test]
fn entries_past_the_sections_held_do_not_count() {
    let mut long = lists(1, 3);
    for _ in 0..200 {
        long.delivered.push(u32::MAX);
        long.margin_sums.push(i64::MIN);
    }
    long.terminated.push(u32::MAX);
    assert_eq!(count(&three(), &long), LEAST);
    let (_, none_held) = open(25, 100, 100);
    assert_eq!(count(&none_held, &lists(0, 0)), 11);
    long.buyers.clear();
    (long.elevators, long.sellers, long.lots) = (vec![], vec![], vec![]);
    assert_eq!(count(&none_held, &long), 11);
    assert_eq!(label(&none_held, &lists(1, 0)), refused(39));
}

#[test]
fn the_book_need_not_have_expired() {
    let mut book = three();
    assert!(!book.expired);
    book.expired = true;
    assert_eq!(count(&book, &lists(1, 3)), LEAST);
    book.expired = false;
    (book.last_session, book.last_price) = (SessionKind::None, 0);
    assert_eq!(count(&book, &lists(1, 3)), LEAST);
}

/// 128 sections and a lot of 1,000 tonnes; 382 lines, every number as long as can be.
fn fullest() -> (Book, Lists) {
    let mut book = any_book(&mut Random::new(1), SECTIONS);
    book.lot = 1_000;
    let mut lists = lists(REGISTER, SECTIONS);
    lists.elevators.fill(31);
    lists.lots.fill(1_000_000);
    lists.delivered.fill(u32::MAX);
    lists.terminated.fill(u32::MAX);
    lists.lapsed.fill(u32::MAX);
    lists.margin_sums.fill(i64::MIN);
    (book, lists)
}

/// `register 382`; 382 rows like `A000001 31 A000002 1000000 1000000000`; 128 like
/// `A000001 4294967295 4294967295 4294967295 -9223372036854775808`.
const MOST: usize = 13 + 382 * 38 + 128 * 62;

#[test]
fn the_fullest_listing_has_22_465_bytes() {
    let (book, lists) = fullest();
    assert_eq!(MOST, 22_465);
    assert_eq!(count(&book, &lists), MOST);
    assert_eq!(of_book(&book, REGISTER, &lists).len(), MOST);
}

/// No number of the fullest can be made longer; what would be is turned away.
#[test]
fn no_listing_that_is_not_refused_has_more() {
    let (book, fullest) = fullest();
    let with = |change: &dyn Fn(&mut Lists)| {
        let mut lists = fullest.clone();
        change(&mut lists);
        label(&book, &lists)
    };
    for elevator in 0..=255 {
        let label = with(&|l| l.elevators[381] = elevator);
        assert_eq!(label.number, if elevator < 32 { 0 } else { 39 });
        assert!(label.count <= MOST);
    }
    let random = &mut Random::new(39);
    for _ in 0..2_000 {
        let (lots, sum) = (any(random) as u32, any_sum(random));
        assert!(with(&|l| l.lots[0] = lots).count <= MOST);
        assert!(with(&|l| l.lapsed[127] = lots).count <= MOST);
        assert!(with(&|l| l.margin_sums[127] = sum).count <= MOST);
    }
    let mut larger = book.clone();
    larger.lot = 1_001;
    assert_eq!(label(&larger, &fullest), refused(1));
    assert_eq!(label(&book, &lists(383, SECTIONS)), refused(39));
}

/// Any number of 64 bits, often next to a power of ten.
fn any(random: &mut Random) -> u64 {
    let power = 10_u64.pow(random.from_to(0, 19));
    let some = random.bits() >> random.below(64);
    random.pick(&[power - 1, power, some])
}

fn any_lots(random: &mut Random) -> u32 {
    any(random).clamp(1, 1_000_000) as u32
}

fn any_sum(random: &mut Random) -> i64 {
    let sum = any(random) as i64;
    random.pick(&[sum, sum, sum.wrapping_neg(), sum.wrapping_neg(), i64::MIN])
}

/// A good book of so many sections, expired or not.
fn any_book(random: &mut Random, sections: usize) -> Book {
    let lot = any(random).clamp(1, 1_000) as u32;
    let (_, mut book) = open(lot, 100, 100);
    let digit = |number: usize| b"0123456789ABCDEFGHIJKLMNOPQRSTUVWXYZ"[number];
    for (i, section) in book.sections[..sections].iter_mut().enumerate() {
        let mut bytes = [0; 7].map(|_| digit(random.below(36)));
        (bytes[1], bytes[4]) = (digit(i / 36), digit(i % 36));
        section.code = SectionCode(bytes);
        section.participant = random.bits() as u32;
    }
    for couple in book.sections[..sections].chunks_exact_mut(2) {
        couple[0].position = random.below(1_000_001) as i64;
        couple[1].position = -couple[0].position;
    }
    book.sections_held = sections;
    book.trades_since = random.from_to(0, 2_000);
    book.expired = random.percent(50);
    assert!(book.is_good());
    book
}

/// Lists of any numbers that the book's listing may have.
fn any_lists(random: &mut Random, sections: usize) -> Lists {
    let some = random.below(REGISTER + 1);
    let lines = random.pick(&[0, 9, 10, 99, 100, REGISTER, some, some, some]);
    let lines = if sections == 0 { 0 } else { lines };
    let mut lists = lists(lines, sections + random.below(3));
    for section in lists.buyers.iter_mut().chain(&mut lists.sellers) {
        *section = random.below(sections) as u8;
    }
    lists.elevators.fill_with(|| random.below(32) as u8);
    lists.lots.fill_with(|| any_lots(random));
    for list in [
        &mut lists.delivered,
        &mut lists.terminated,
        &mut lists.lapsed,
    ] {
        list.fill_with(|| any(random).min(u32::MAX.into()) as u32);
    }
    lists.margin_sums.fill_with(|| any_sum(random));
    lists
}

#[test]
fn the_count_is_the_length_of_the_listing_whatever_the_numbers() {
    for seed in 0..3_000 {
        let random = &mut Random::new(seed);
        let some = random.below(SECTIONS + 1);
        let sections = random.pick(&[0, 1, 2, SECTIONS, some, some, some]);
        let (book, lists) = (any_book(random, sections), any_lists(random, sections));
        let bytes = of_book(&book, lists.lots.len(), &lists).len();
        assert_eq!(count(&book, &lists), bytes, "seed {seed}");
        assert!(bytes <= MOST);
    }
}

#[test]
fn the_count_of_a_file_is_the_length_of_what_is_printed_for_it() {
    let seeds: Vec<u64> = (0..640).collect();
    for input in inputs(&seeds) {
        let bytes = listing(&input.bytes).len();
        assert_eq!(of_file(&input.bytes), bytes, "{}", input.name);
    }
    for case in unstarred() {
        assert_eq!(of_file(&case.file()), case.prints.len(), "{}", case.claim);
    }
}

#[test]
fn the_program_prints_the_count_of_the_file_on_standard_input() {
    let output = given(LABEL, &[], &worked().file());
    assert_eq!(output.stdout, b"169\n");
    assert!(output.status.success() && output.stderr.is_empty());
    for (name, bytes) in examples() {
        let count = format!("{}\n", listing(&bytes).len());
        assert_eq!(given(LABEL, &[], &bytes).stdout, count.as_bytes(), "{name}");
    }
    for seed in 0..32 {
        let count = format!("{}\n", of_file(&file(seed)));
        assert_eq!(given(LABEL, &[], &file(seed)).stdout, count.as_bytes());
    }
}

#[test]
fn a_refused_file_is_a_normal_answer() {
    for bytes in [0, 15, 17, 200_000] {
        let output = given(LABEL, &[], &vec![255; bytes]);
        assert_eq!(output.stdout, b"13\n");
        assert!(output.status.success() && output.stderr.is_empty());
    }
}
