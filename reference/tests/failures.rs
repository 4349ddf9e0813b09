//! Which failures reach a grower (document 02, n): counts worked by hand, the refusals
//! and their order, what holds of every book, and the program.

mod common;

use common::programs::given;
use common::{Row, book_of, expire};
use wheat_delivery::reading::book::{Book, SessionKind};
use wheat_delivery::reading::failures::{
    ARGUMENTS, Ending, Failures, looked_at, printed, section_meant,
};
use wheat_delivery::reading::file::event::Event;
use wheat_delivery::reading::file::{SIZES, length, write};
use wheat_delivery::trial::examples::shared;
use wheat_delivery::trial::failures::cases;
use wheat_delivery::trial::generate::desk;
use wheat_delivery::trial::hand::{condition, notice, section, session, trade, worked};
use wheat_delivery::trial::random::Random;

const FAILURES: &str = env!("CARGO_BIN_EXE_failures");

/// The three counts of an accepted call.
fn counts(book: &Book, asked: u8, named: &[u8]) -> [u32; 3] {
    let answer = book.failures(asked, named);
    assert_eq!(answer.number, 0);
    [answer.full, answer.part, answer.none]
}

/// The answer of a refused call: its counts are 0.
fn refused(number: u8) -> Failures {
    Failures {
        number,
        full: 0,
        part: 0,
        none: 0,
    }
}

/// A book whose sections are these persons'.
fn of_persons(rows: &[Row], participants: &[u32]) -> Book {
    let mut book = book_of(rows, &[]);
    for (section, &participant) in book.sections.iter_mut().zip(participants) {
        section.participant = participant;
    }
    book
}

/// The worked example's book: +5 and -2 of code 1, -6 of code 2, +3 of code 3; the last
/// one's condition is not met.
fn worked_book() -> Book {
    looked_at(&worked().file()).unwrap()
}

/// Which sections of the worked example fail, and what the others deliver. All is
/// worked out from the papers, step by step.
const WORKED: [(&[u8], [u32; 4]); 16] = [
    (&[], [5, 2, 6, 3]),
    // +3 is closed by the -6, of the only code with a net below 0.
    (&[3], [5, 2, 3, 0]),
    // -6: first the +3, then three of the +5, as its code has a net of 3.
    (&[2], [2, 2, 0, 0]),
    // -6 and +3 leave -3, which the +5 gives.
    (&[2, 3], [2, 2, 0, 0]),
    // -2 is closed in its own code.
    (&[1], [3, 0, 6, 3]),
    (&[1, 3], [3, 0, 3, 0]),
    // The +5 has 3 left, gives first by its section code, and the +3 gives the rest.
    (&[1, 2], [0, 0, 0, 0]),
    (&[1, 2, 3], [0, 0, 0, 0]),
    // Of +5 two are closed in its code, three by the -6.
    (&[0], [0, 0, 3, 3]),
    (&[0, 3], [0, 0, 0, 0]),
    // Three are left of the +5, and -6: the +3 gives.
    (&[0, 2], [0, 0, 0, 0]),
    // Nothing is left, as 3, -6 and 3 make 0.
    (&[0, 2, 3], [0, 0, 0, 0]),
    // +5 and -2 leave 3, which the -6 gives.
    (&[0, 1], [0, 0, 3, 3]),
    (&[0, 1, 3], [0, 0, 0, 0]),
    (&[0, 1, 2], [0, 0, 0, 0]),
    (&[0, 1, 2, 3], [0, 0, 0, 0]),
];

#[test]
fn the_worked_example_pattern_by_pattern() {
    let delivered: Vec<Vec<u32>> = worked_book()
        .settlements(&[0, 1, 2, 3])
        .map(|settlement| settlement.delivered)
        .collect();
    for (failing, lots) in WORKED {
        let failing: usize = failing.iter().map(|section| 1 << section).sum();
        assert_eq!(delivered[15 - failing], lots, "{failing:04b}");
    }
}

#[test]
fn the_worked_example_with_several_named() {
    let book = worked_book();
    let each = |named: &[u8]| [0, 1, 2, 3].map(|asked| counts(&book, asked, named));
    let all = [[2, 4, 10], [4, 0, 12], [2, 4, 10], [4, 0, 12]];
    assert_eq!(each(&[0, 1, 2, 3]), all);
    // Section 0 meets its condition.
    let three = [[2, 4, 2], [4, 0, 4], [2, 2, 4], [2, 0, 6]];
    assert_eq!(each(&[1, 2, 3]), three);
    // Section 3 does not.
    let two = [[1, 2, 1], [2, 0, 2], [0, 2, 2], [0, 0, 4]];
    assert_eq!(each(&[1, 2]), two);
    let one = [[2, 0, 0], [2, 0, 0], [1, 1, 0], [1, 0, 1]];
    assert_eq!(each(&[3]), one);
    let none = [[1, 0, 0], [1, 0, 0], [0, 1, 0], [0, 0, 1]];
    assert_eq!(each(&[]), none);
}

/// Failing longs of 1 and 2 lots take them from a short of 3: all of them, some and
/// none are left.
#[test]
fn one_section_in_full_in_part_and_not_at_all() {
    let rows = [
        (1, "A000001", 1, true),
        (1, "A000002", 2, true),
        (1, "B000001", -3, true),
    ];
    let book = book_of(&rows, &[]);
    assert_eq!(counts(&book, 2, &[0, 1]), [1, 2, 1]);
    // Named too, it delivers nothing in the other half.
    assert_eq!(counts(&book, 2, &[0, 1, 2]), [1, 2, 5]);
    assert_eq!(counts(&book, 2, &[2]), [1, 0, 1]);
    // The two longs: the short fails, or each its own.
    assert_eq!(counts(&book, 0, &[0, 1, 2]), [2, 0, 6]);
    assert_eq!(counts(&book, 1, &[0, 1, 2]), [2, 0, 6]);
    assert_eq!(counts(&book, 1, &[0]), [2, 0, 0]);
}

/// The starred cases of steps 2 and 3, each failing section named.
#[test]
fn lots_given_in_steps_2_and_3() {
    let rows = [
        (1, "A000001", 5, true),
        (1, "A000002", -3, true),
        (1, "A000003", 1, true),
        (1, "A000004", -4, true),
        (2, "B000001", 1, true),
    ];
    let book = book_of(&rows, &[]);
    // Both fail: of the -4 two are left; +5 alone: the -3 gives first, and two are left;
    // -3 alone: the +1 gives first, then two of the +5.
    assert_eq!(counts(&book, 3, &[0, 1]), [2, 2, 0]);
    assert_eq!(counts(&book, 2, &[0, 1]), [3, 0, 1]);
    assert_eq!(counts(&book, 0, &[0, 1]), [1, 1, 2]);
    assert_eq!(counts(&book, 1, &[0, 1]), [1, 0, 3]);
    assert_eq!(counts(&book, 4, &[0, 1]), [4, 0, 0]);
    let other = |code: u8| {
        let rows = [
            (3, "A000003", 3, false),
            (1, "A000001", -2, true),
            (2, "A000002", -2, true),
            (code, "A000004", 1, true),
        ];
        let book = book_of(&rows, &[]);
        [1, 2, 3].map(|asked| counts(&book, asked, &[0]))
    };
    // They lose 2 and 1; with the +1 in code 1, 1 and 2.
    assert_eq!(other(4), [[1, 0, 1], [1, 1, 0], [2, 0, 0]]);
    assert_eq!(other(1), [[1, 1, 0], [1, 0, 1], [2, 0, 0]]);
}

/// A buyer of 2 and the seller of 3 are one person's, a buyer of 1 another's. With both
/// buyers two of the seller's lots lapse; with the first alone both that it has left.
#[test]
fn lapsed_lots_are_not_delivered() {
    let rows = [
        (1, "A000001", 2, true),
        (1, "A000002", 1, true),
        (1, "B000001", -3, true),
    ];
    let shared = of_persons(&rows, &[9, 8, 9]);
    assert_eq!(counts(&shared, 2, &[]), [0, 1, 0]);
    assert_eq!(counts(&shared, 2, &[0, 1]), [0, 2, 2]);
    assert_eq!(counts(&shared, 0, &[0, 1]), [0, 0, 4]);
    assert_eq!(counts(&shared, 0, &[]), [0, 0, 1]);
    assert_eq!(counts(&shared, 1, &[0, 1]), [2, 0, 2]);
    let different = of_persons(&rows, &[9, 8, 7]);
    assert_eq!(counts(&different, 2, &[0, 1]), [1, 2, 1]);
    assert_eq!(counts(&different, 0, &[0, 1]), [2, 0, 2]);
    assert_eq!(counts(&different, 1, &[0, 1]), [2, 0, 2]);
}

/// Of B000001's six lots one is delivered, three are terminated for C000001 and two
/// lapse; where C000001 meets its condition, three are delivered for it.
#[test]
fn the_shared_example() {
    let book = looked_at(&shared().file()).unwrap();
    let each = |named: &[u8]| [0, 1, 2, 3, 4].map(|asked| counts(&book, asked, named));
    let none = [[0, 1, 0], [1, 0, 0], [0, 1, 0], [0, 0, 1], [1, 0, 0]];
    assert_eq!(each(&[]), none);
    let lots = |met: usize| {
        let settlement = book.settlements(&[3]).nth(met).unwrap();
        (settlement.delivered, settlement.lapsed)
    };
    assert_eq!(lots(0), (vec![2, 2, 1, 0, 1], vec![2, 0, 2, 0, 0]));
    assert_eq!(lots(1), (vec![2, 2, 4, 3, 1], vec![2, 0, 2, 0, 0]));
    let one = [[0, 2, 0], [2, 0, 0], [0, 2, 0], [1, 0, 1], [2, 0, 0]];
    assert_eq!(each(&[3]), one);
}

#[test]
fn a_section_without_a_position_counts_as_in_full() {
    let rows = [
        (1, "A000001", 2, true),
        (1, "B000001", -2, true),
        (1, "F000001", 0, false),
        (2, "F000002", 0, true),
    ];
    let book = book_of(&rows, &[]);
    for flat in [2, 3] {
        assert_eq!(counts(&book, flat, &[]), [1, 0, 0]);
        assert_eq!(counts(&book, flat, &[flat]), [2, 0, 0]);
        assert_eq!(counts(&book, flat, &[0, 1, 2, 3]), [16, 0, 0]);
    }
    let alone = book_of(&rows[2..], &[]);
    assert_eq!(counts(&alone, 0, &[1]), [2, 0, 0]);
}

/// A short section without the seller mark, or whose notices are not its lots, fails
/// whatever its condition.
#[test]
fn a_section_that_fails_anyway_makes_no_difference() {
    let rows = [
        (1, "A000001", 3, true),
        (1, "A000002", 1, true),
        (1, "B000001", -4, true),
    ];
    let mut unmarked = book_of(&rows, &[]);
    unmarked.sections[2].seller = false;
    let unnoticed = book_of(&rows, &[(2, 0, 2), (2, 1, 1)]);
    for book in [unmarked, unnoticed] {
        assert_eq!(counts(&book, 2, &[]), [0, 0, 1]);
        assert_eq!(counts(&book, 2, &[2]), [0, 0, 2]);
        assert_eq!(counts(&book, 2, &[0, 1, 2]), [0, 0, 8]);
        assert_eq!(counts(&book, 0, &[2]), [0, 0, 2]);
    }
}

/// A seller of ten lots, ten buyers of one, and two sections without a position.
fn ten_buyers() -> Book {
    let codes: Vec<String> = (0..10).map(|i| format!("A00000{i}")).collect();
    let mut rows: Vec<Row> = codes.iter().map(|code| (1, &code[..], 1, true)).collect();
    rows.push((1, "B000001", -10, true));
    rows.push((1, "F000001", 0, true));
    rows.push((1, "F000002", 0, true));
    book_of(&rows, &[])
}

#[test]
fn ten_may_be_named_and_eleven_may_not() {
    let book = ten_buyers();
    let sections: Vec<u8> = (0..13).collect();
    // In one pattern no buyer fails, in one all do.
    assert_eq!(counts(&book, 10, &sections[..10]), [1, 1022, 1]);
    assert_eq!(counts(&book, 10, &sections[..9]), [1, 511, 0]);
    assert_eq!(counts(&book, 0, &sections[..10]), [512, 0, 512]);
    assert_eq!(counts(&book, 11, &sections[..10]), [1024, 0, 0]);
    for named in [&sections[..11], &sections[..12], &sections] {
        for asked in sections.clone() {
            assert_eq!(book.failures(asked, named), refused(40));
        }
    }
    assert_eq!(book.failures(10, &[0; 11]), refused(40));
    assert_eq!(book.failures(10, &[0; 1_000]), refused(40));
}

#[test]
fn none_may_be_named_twice() {
    let book = ten_buyers();
    for named in [
        &[0, 0][..],
        &[0, 1, 0],
        &[1, 0, 0],
        &[10, 10],
        &[0, 1, 2, 3, 4, 5, 6, 7, 8, 0],
        &[0, 1, 2, 3, 4, 5, 6, 7, 8, 8],
        &[11, 0, 1, 11],
    ] {
        assert_eq!(book.failures(10, named), refused(40), "{named:?}");
        assert_eq!(book.failures(named[0], named), refused(40), "{named:?}");
    }
}

#[test]
fn an_unknown_section_is_refused_before_what_is_named() {
    let book = ten_buyers();
    for unknown in [13, 14, 127, 128, 255] {
        assert_eq!(book.failures(unknown, &[]), refused(10));
        assert_eq!(book.failures(unknown, &[0, 1]), refused(10));
        assert_eq!(book.failures(0, &[unknown]), refused(10));
        assert_eq!(book.failures(0, &[1, 2, unknown, 3]), refused(10));
        assert_eq!(book.failures(unknown, &[unknown]), refused(10));
        // Before 40: one twice, unknown or not, and more than 10.
        assert_eq!(book.failures(unknown, &[1, 1]), refused(10));
        assert_eq!(book.failures(0, &[1, 1, unknown]), refused(10));
        assert_eq!(book.failures(0, &[unknown, unknown]), refused(10));
        let mut many: Vec<u8> = (0..12).collect();
        assert_eq!(book.failures(unknown, &many), refused(10));
        many.push(unknown);
        assert_eq!(book.failures(0, &many), refused(10));
    }
    let (_, none) = wheat_delivery::reading::calls::open(25, 100, 100);
    assert_eq!(none.failures(0, &[]), refused(10));
}

#[test]
fn an_expired_book_is_refused_before_an_unknown_section() {
    let mut book = ten_buyers();
    book.expired = true;
    assert!(book.is_good());
    for (asked, named) in [(10, &[][..]), (10, &[0, 1]), (13, &[]), (0, &[13, 13])] {
        assert_eq!(book.failures(asked, named), refused(5));
    }
    assert_eq!(book.failures(0, &[1; 11]), refused(5));
}

#[test]
fn a_bad_book_is_refused_before_all_else() {
    let spoils: [fn(&mut Book); 7] = [
        |book| *book = Book::noughts(),
        |book| book.lot = 0,
        |book| book.sections[0].position += 1,
        |book| book.sections[0].settlement_code = 64,
        |book| book.notices[0].section = 13,
        |book| book.sections[127].condition_met = true,
        |book| book.sections_held = 129,
    ];
    for expired in [false, true] {
        for spoil in spoils {
            let mut book = ten_buyers();
            book.expired = expired;
            spoil(&mut book);
            for (asked, named) in [(10, &[][..]), (0, &[1, 2]), (255, &[]), (0, &[1, 1])] {
                assert_eq!(book.failures(asked, named), refused(1));
            }
        }
    }
}

/// 22 is not said, and the session changes nothing.
#[test]
fn no_session_is_asked_for_and_no_trade_is_in_the_way() {
    let mut book = worked_book();
    let sessions = [
        (SessionKind::None, 0),
        (SessionKind::Day, 1_520_000),
        (SessionKind::Evening, 1_520_000),
    ];
    for (kind, price) in sessions {
        for trades in [0, 1, 2_000] {
            (book.last_session, book.last_price) = (kind, price);
            book.trades_since = trades;
            assert_eq!(counts(&book, 0, &[1, 2, 3]), [2, 4, 2]);
        }
    }
}

#[test]
fn the_endings_of_a_section() {
    for position in [5, -5] {
        let ending = |delivered| Ending::of(position, delivered);
        assert_eq!(ending(5), Ending::Full);
        assert_eq!([1, 4].map(ending), [Ending::Part; 2]);
        assert_eq!(ending(0), Ending::NotAtAll);
    }
    assert_eq!(Ending::of(0, 0), Ending::Full);
    assert_eq!(Ending::of(-1_000_000, 1_000_000), Ending::Full);
}

/// Books of the generator, and for each a section asked and up to six named.
fn any_books(count: u64, holds: impl Fn(&mut Random, &Book, u8, &[u8])) {
    for seed in 0..count {
        let random = &mut Random::new(seed);
        let book = looked_at(&desk(random, 2 + seed as usize % 6)).unwrap();
        if book.sections_held == 0 {
            continue;
        }
        let mut sections: Vec<u8> = (0..book.sections_held as u8).collect();
        random.shuffle(&mut sections);
        let asked = random.pick(&sections);
        let named = random.below(sections.len().min(6) + 1);
        holds(random, &book, asked, &sections[..named]);
    }
}

#[test]
fn the_counts_make_two_to_the_power_of_the_number_named() {
    any_books(400, |_, book, asked, named| {
        let sum: u32 = counts(book, asked, named).iter().sum();
        assert_eq!(sum, 1 << named.len());
    });
}

#[test]
fn the_order_of_naming_does_not_show() {
    any_books(400, |random, book, asked, named| {
        let counted = counts(book, asked, named);
        let mut named = named.to_vec();
        named.reverse();
        assert_eq!(counts(book, asked, &named), counted);
        random.shuffle(&mut named);
        assert_eq!(counts(book, asked, &named), counted);
    });
}

#[test]
fn a_flat_section_named_doubles_each_count() {
    any_books(800, |_, book, asked, named| {
        let counted = counts(book, asked, named);
        for flat in 0..book.sections_held {
            if book.sections[flat].position == 0 && !named.contains(&(flat as u8)) {
                let named = [named, &[flat as u8]].concat();
                assert_eq!(counts(book, asked, &named), counted.map(|count| 2 * count));
            }
        }
    });
}

/// What named sections are set to does not show, and naming one counts both of the
/// books that differ in its mark alone.
#[test]
fn naming_a_section_adds_the_counts_of_both_its_marks() {
    any_books(400, |_, book, asked, named| {
        let [others @ .., last] = named else {
            return;
        };
        let set = |met| {
            let mut book = book.clone();
            book.condition(*last, met).unwrap();
            book
        };
        let [unmet, met] = [false, true].map(|met| counts(&set(met), asked, others));
        let both = [0, 1, 2].map(|i| unmet[i] + met[i]);
        for book in [book, &set(false), &set(true)] {
            assert_eq!(counts(book, asked, named), both);
        }
    });
}

/// The same by the public calls alone: conditions, and an expiry after a day session
/// with lists of full length.
#[test]
fn each_pattern_ends_as_its_expiry_does() {
    any_books(400, |_, book, asked, named| {
        let mut ready = book.clone();
        (ready.last_session, ready.last_price) = (SessionKind::Day, 1);
        ready.trades_since = 0;
        assert!(ready.is_good());
        let mut counted = [0; 3];
        for pattern in 0..1 << named.len() {
            let mut book = ready.clone();
            for (bit, &section) in named.iter().enumerate() {
                book.condition(section, pattern & 1 << bit != 0).unwrap();
            }
            let delivered = expire(&book).unwrap().delivered[usize::from(asked)];
            let size = book.sections[usize::from(asked)].position.abs();
            let ending = match i64::from(delivered) {
                lots if lots == size => 0,
                0 => 2,
                _ => 1,
            };
            counted[ending] += 1;
        }
        assert_eq!(counts(book, asked, named), counted);
    });
}

/// With all participants different no lots lapse, and no pattern ends worse.
#[test]
fn no_pattern_ends_better_for_one_person_on_both_sides() {
    any_books(400, |_, book, asked, named| {
        let mut different = book.clone();
        for (number, section) in different.sections[..book.sections_held]
            .iter_mut()
            .enumerate()
        {
            section.participant = number as u32;
        }
        let [full, _, none] = counts(book, asked, named);
        let [more, _, fewer] = counts(&different, asked, named);
        assert!(full <= more && none >= fewer);
    });
}

/// What the program prints for a file and these arguments.
fn row(arguments: &[&str], file: &[u8]) -> String {
    let arguments: Vec<&[u8]> = arguments.iter().map(|word| word.as_bytes()).collect();
    printed(&arguments, file).unwrap()
}

#[test]
fn the_rows_of_the_worked_example() {
    let file = worked().file();
    assert_eq!(row(&["0", "1", "2", "3"], &file), "2 4 2\n");
    assert_eq!(
        row(&["A000001", "2", "C000001", "A000002"], &file),
        "2 4 2\n"
    );
    assert_eq!(row(&["00", "001", "B000001", "00000003"], &file), "2 4 2\n");
    assert_eq!(row(&["B000001"], &file), "0 1 0\n");
    assert_eq!(row(&["3", "C000001"], &file), "1 0 1\n");
    assert_eq!(row(&["0", "0"], &file), "1 0 1\n");
    assert_eq!(row(&["2", "C000001"], &file), "1 1 0\n");
    assert_eq!(row(&["3", "3", "C000001"], &file), "refused 40\n");
    assert_eq!(row(&["0", "1", "A000002"], &file), "refused 40\n");
    assert_eq!(row(&["0", "4", "4"], &file), "refused 10\n");
    assert_eq!(row(&["4"], &file), "refused 10\n");
    assert_eq!(row(&["0", "D000001"], &file), "refused 10\n");
}

#[test]
fn an_argument_is_a_code_of_seven_bytes_or_a_number() {
    let events = [
        section(1, false, "0000001", 1),
        section(1, true, "0000000", 2),
        section(1, false, "ZZZZZZZ", 3),
    ];
    let book = looked_at(&write(10, 1, 1, &events).unwrap()).unwrap();
    let meant = |argument: &str| section_meant(&book, argument.as_bytes());
    for (argument, section) in [
        ("0", 0),
        ("1", 1),
        ("2", 2),
        ("02", 2),
        ("000001", 1),
        ("0000001", 0),
        ("00000001", 1),
        ("0000000", 1),
        ("00000000", 0),
        ("ZZZZZZZ", 2),
        (&"0".repeat(1_000), 0),
        (&("0".repeat(1_000) + "2"), 2),
    ] {
        assert_eq!(meant(argument), Some(section), "{argument}");
    }
    for argument in [
        "",
        "3",
        "10",
        "127",
        "128",
        "129",
        "255",
        "256",
        "257",
        "0000002",
        "0000003",
        "1000000",
        "65536",
        "4294967296",
        "4294967297",
        "18446744073709551616",
        "340282366920938463463374607431768211456",
        "-0",
        "+1",
        " 1",
        "1 ",
        "1\n",
        "0x1",
        "1.0",
        "one",
        "zzzzzzz",
        "ZZZZZZ",
        "ZZZZZZZZ",
        "ZZZZZZé",
        "١",
        "É000001",
    ] {
        assert_eq!(meant(argument), None, "{argument:?}");
    }
    assert_eq!(section_meant(&book, b"\xff"), None);
    assert_eq!(section_meant(&book, b"\xff000001"), None);
}

/// The code is looked for after all events, the number too.
#[test]
fn sections_are_those_held_after_all_events() {
    let mut events = worked().events;
    events.push(section(9, false, "E000001", 1));
    let file = write(25, 2_500, 100, &events).unwrap();
    assert_eq!(row(&["4", "E000001"], &file), "2 0 0\n");
}

#[test]
fn an_expiry_is_skipped_wherever_it_stands() {
    let mut without = worked().events;
    without.pop();
    for place in 0..=without.len() {
        let mut events = without.clone();
        events.insert(place, Event::Expiry);
        let file = write(25, 2_500, 100, &events).unwrap();
        assert_eq!(row(&["0", "1", "2", "3"], &file), "2 4 2\n", "{place}");
        events.insert(place, Event::Expiry);
        let file = write(25, 2_500, 100, &events).unwrap();
        assert_eq!(row(&["3", "3"], &file), "1 0 1\n", "{place}");
    }
    let file = write(25, 2_500, 100, &without).unwrap();
    assert_eq!(row(&["0", "1", "2", "3"], &file), "2 4 2\n");
}

/// Without a session, after an evening one and after trades the present positions
/// count: of the seller's two lots one is sold to section 3.
#[test]
fn the_present_positions_count_whatever_the_session() {
    let market = [
        section(1, false, "A000001", 1),
        section(1, true, "A000002", 2),
        section(1, false, "A000003", 3),
        trade(0, 1, 100, 1),
        condition(0, true),
        condition(1, true),
        condition(2, true),
        notice(1, 0, 2),
    ];
    let ends: [&[Event]; 4] = [
        &[trade(2, 1, 100, 1)],
        &[session(100), trade(2, 1, 100, 1)],
        &[trade(2, 1, 100, 1), session(100), session(100)],
        &[session(100), session(90), trade(2, 1, 100, 1), session(80)],
    ];
    for end in ends {
        let file = write(10, 1, 1, &[&market[..], end].concat()).unwrap();
        assert_eq!(row(&["1", "0", "2"], &file), "1 2 1\n");
        assert_eq!(row(&["0", "2"], &file), "2 0 0\n");
    }
    // Without that trade the notices are not the seller's lots.
    let file = write(10, 1, 1, &market).unwrap();
    assert_eq!(row(&["1", "0", "2"], &file), "0 0 4\n");
}

#[test]
fn refused_events_and_unreadable_ones_leave_the_book_as_it_was() {
    let refusals = [
        section(64, false, "D000001", 1),
        section(1, false, "A000001", 1),
        trade(0, 0, 1_500_000, 1),
        trade(0, 1, 1_500_000, 0),
        trade(0, 200, 1_500_000, 1),
        session(0),
        condition(200, false),
        notice(2, 32, 1),
        notice(2, 4, 0),
    ];
    for refused in refusals {
        for place in 4..=15 {
            let mut events = worked().events;
            events.insert(place, refused);
            let file = write(25, 2_500, 100, &events).unwrap();
            assert_eq!(row(&["0", "1", "2", "3"], &file), "2 4 2\n");
        }
    }
    // A condition that does not read would be unmet, and any kind that is not known.
    for (kind, byte, value) in [(4, 2, 1), (4, 15, 1), (4, 1, 2), (0, 0, 0), (7, 0, 0)] {
        for place in 0..=15 {
            let mut events = worked().events;
            events.insert(place, condition(0, false));
            let mut file = write(25, 2_500, 100, &events).unwrap();
            file[SIZES + place] = kind;
            file[SIZES + 16 + 16 * place + byte] = value;
            assert_eq!(row(&["0", "1", "2", "3"], &file), "2 4 2\n");
        }
    }
}

#[test]
fn a_file_of_another_length_or_opening_is_refused_first() {
    let file = worked().file();
    for cut in [0, 1, 15, 16, 100, 270] {
        assert_eq!(row(&["0"], &file[..cut]), "refused 25\n");
        assert_eq!(row(&["x", "1", "1"], &file[..cut]), "refused 25\n");
    }
    assert_eq!(row(&["0"], &[&file[..], &[0]].concat()), "refused 25\n");
    let mut long = vec![0; length(3_801)];
    long[..SIZES].copy_from_slice(&file[..SIZES]);
    long[..4].copy_from_slice(&3_801_u32.to_le_bytes());
    assert_eq!(row(&["0"], &long), "refused 25\n");
    let events = worked().events;
    for (lot, w, r, number) in [
        (0, 2_500, 100, 2),
        (1_001, 0, 0, 2),
        (25, 0, 100, 3),
        (25, 2_500, 1_000_001, 3),
        (25, 1, 200_001, 4),
        (25, 101, 1, 4),
    ] {
        let file = write(lot, w, r, &events).unwrap();
        for arguments in [&["0"][..], &["9"], &["0", "1", "1"]] {
            assert_eq!(row(arguments, &file), format!("refused {number}\n"));
        }
    }
}

#[test]
fn a_book_without_sections_has_none_to_ask() {
    let file = write(25, 2_500, 100, &[]).unwrap();
    assert_eq!(row(&["0"], &file), "refused 10\n");
    assert_eq!(row(&["0", "0", "0"], &file), "refused 10\n");
}

#[test]
fn no_argument_and_more_than_256_are_turned_away() {
    let file = worked().file();
    assert_eq!(printed(&[], &file), None);
    assert_eq!(printed(&[], b""), None);
    let many = [&b"0"[..]; ARGUMENTS + 1];
    assert_eq!(printed(&many, &file), None);
    assert_eq!(printed(&many, b""), None);
    let most = printed(&many[1..], &file);
    assert_eq!(most.as_deref(), Some("refused 40\n"));
    for count in [0, 257, 1_000] {
        let output = given(FAILURES, &vec!["0"; count], &file);
        assert!(output.stdout.is_empty() && output.status.code() == Some(2));
        let rows = output.stderr.iter().filter(|&&byte| byte == b'\n');
        assert_eq!(rows.count(), 1);
    }
}

#[test]
fn the_program_and_the_library_print_the_same() {
    let seeds: Vec<u64> = (0..64).collect();
    let short = |bytes: usize| bytes < 10_000;
    for case in cases(&seeds).filter(|case| short(case.input.bytes.len())) {
        let output = given(FAILURES, &case.given(), &case.input.bytes);
        assert_eq!(output.stdout, case.prints().unwrap().into_bytes());
        assert!(output.status.success() && output.stderr.is_empty());
    }
}

#[cfg(unix)]
#[test]
fn arguments_are_bytes_and_need_not_be_text() {
    use std::ffi::OsStr;
    use std::os::unix::ffi::OsStrExt;
    use std::process::{Command, Stdio};
    let output = Command::new(FAILURES)
        .args([b"\xff", &b"\xff000001"[..]].map(OsStr::from_bytes))
        .stdin(Stdio::null())
        .output()
        .unwrap();
    assert_eq!(output.stdout, b"refused 25\n");
    assert!(output.status.success() && output.stderr.is_empty());
}
