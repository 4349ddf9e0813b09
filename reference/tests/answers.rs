//! What the program `calls` prints: files worked by hand, and the program.

mod common;

use common::programs::given;
use common::without_margins;
use wheat_delivery::reading::answers::printed;
use wheat_delivery::reading::file::event::Event;
use wheat_delivery::reading::file::{EVENTS, length, write};
use wheat_delivery::reading::listing::listing;
use wheat_delivery::trial::calls::{file, inputs};
use wheat_delivery::trial::examples::shared;
use wheat_delivery::trial::hand::{condition, notice, section, session, trade, worked};

const CALLS: &str = env!("CARGO_BIN_EXE_calls");

/// A file in which the value of a price is the price.
fn file_of(events: &[Event]) -> Vec<u8> {
    write(10, 1, 1, events).unwrap()
}

/// The rows of a file of which no event hands anything out.
fn numbers(events: &[Event]) -> Vec<u8> {
    let text = printed(&file_of(events));
    let number = |(place, row): (usize, &str)| {
        let (first, number) = row.split_once(' ').unwrap();
        assert_eq!(first, place.to_string());
        number.parse().unwrap()
    };
    text.lines().enumerate().map(number).collect()
}

#[test]
fn the_worked_example_by_hand() {
    let rows = "\
0 0\n1 0\n2 0\n3 0\n4 0\n5 0\n6 0
7 0
margins 2500000 -1000000 -2250000 750000
8 0\n9 0\n10 0\n11 0\n12 0\n13 0
14 0
expiry 3 3 3
register 3
A000001 0 A000002 2 50
A000001 4 B000001 2 50
A000001 1 B000001 1 25
A000001 5 0 0
A000002 2 0 0
B000001 3 3 0
C000001 0 3 0
";
    assert_eq!(printed(&worked().file()), rows);
}

#[test]
fn a_removed_line_is_counted_and_not_printed() {
    let end = "\
17 0
expiry 3 3 2
register 2
A000001 0 A000002 2 50
D000001 1 B000001 1 25
A000001 2 0 2
A000002 2 0 0
B000001 1 3 2
C000001 0 3 0
D000001 1 0 0
";
    let rows = printed(&shared().file());
    assert!(rows.ends_with(end), "{rows}");
}

#[test]
fn a_list_goes_on_after_refusals_and_after_its_expiry() {
    let mut file = file_of(&[
        session(0),
        session(100),
        trade(0, 1, 100, 1),
        condition(0, true),
        section(1, true, "A000001", 1),
        section(1, true, "A000001", 2),
        section(1, true, "A000002", 2),
        trade(0, 1, 100, 2),
        trade(0, 0, 100, 2),
        trade(1, 0, 100, 1),
        Event::Expiry,
        session(250),
        Event::Expiry,
        session(300),
        Event::Expiry,
        trade(0, 1, 100, 2),
        condition(0, true),
        Event::Expiry,
    ]);
    file[16 + 3] = 9;
    file[16 + 16] = 9;
    let rows = "\
0 16
1 0
margins
2 10
3 26
4 0
5 8
6 0
7 0
8 11
9 0
10 22
11 0
margins 150 -150
12 22
13 0
margins 50 -50
14 0
expiry 0 0 0
register 0
A000001 0 1 0
A000002 0 1 0
15 5
16 26
17 5
";
    assert_eq!(printed(&file), rows);
}

#[test]
fn every_number_of_a_call_is_shown_and_the_book_is_left() {
    let opened = [
        section(64, true, "A000001", 0),
        section(0, true, "a000001", 0),
        section(63, true, "A000001", 0),
        section(0, true, "A000001", 0),
        section(0, true, "B000001", 0),
    ];
    assert_eq!(numbers(&opened), [6, 7, 0, 8, 0]);
    let filed = [
        notice(2, 0, 1),
        notice(0, 32, 1),
        notice(0, 0, 0),
        notice(0, 0, 1),
        notice(0, 0, 1),
        condition(2, true),
        condition(1, true),
    ];
    let all = [&opened[..], &filed].concat();
    assert_eq!(numbers(&all)[5..], [10, 18, 19, 0, 20, 10, 0]);
    let traded = [
        trade(0, 2, 1, 1),
        trade(1, 1, 1, 1),
        trade(0, 1, 0, 1),
        trade(0, 1, 1, 0),
        trade(0, 1, 1, 1),
        session(10_000_001),
        Event::Expiry,
    ];
    let all = [&opened[..], &traded].concat();
    assert_eq!(numbers(&all)[5..], [10, 11, 12, 13, 0, 16, 22]);
}

#[test]
fn the_limits_of_sections_notices_positions_and_trades_are_shown() {
    let sections: Vec<Event> = (0..130)
        .map(|i| section(0, true, &format!("S{i:06}"), 0))
        .collect();
    let mut wanted = [0; 130];
    wanted[128..].fill(9);
    assert_eq!(numbers(&sections), wanted);
    let notices: Vec<Event> = (0..258)
        .map(|i| notice((i / 32) as u8, (i % 32) as u8, 1))
        .collect();
    let mut wanted = [0; 258];
    wanted[256..].fill(21);
    assert_eq!(numbers(&[&sections[..9], &notices].concat())[9..], wanted);
    let mut trades = vec![trade(0, 1, 1, 10_000); 101];
    trades.extend([
        trade(1, 0, 1, 10_000),
        trade(0, 1, 1, 10_000),
        trade(0, 1, 1, 1),
    ]);
    let answers = numbers(&[&sections[..2], &trades].concat());
    assert_eq!(answers[2..102], [0; 100]);
    assert_eq!(answers[102..], [14, 0, 0, 14]);
    let trades = vec![trade(0, 1, 1, 1); 2_002];
    let answers = numbers(&[&sections[..2], &trades].concat());
    assert_eq!(answers[2..2_002], [0; 2_000]);
    assert_eq!(answers[2_002..], [15, 15]);
}

#[test]
fn an_unreadable_event_or_a_refused_session_does_not_start_the_count_again() {
    let mut events = vec![
        section(0, true, "A000001", 0),
        section(0, true, "A000002", 0),
    ];
    events.extend([trade(0, 1, 1, 1); 1_999]);
    events.extend([session(1), trade(0, 1, 1, 1), session(0), trade(0, 1, 1, 1)]);
    events.extend([session(1), trade(0, 1, 1, 1)]);
    let mut file = file_of(&events);
    file[16 + 2_001] = 0;
    let text = printed(&file);
    let end = "2000 0\n2001 26\n2002 0\n2003 16\n2004 15\n2005 0\nmargins 0 0\n2006 0\n";
    assert!(text.ends_with(end), "{}", &text[text.len() - 200..]);
}

#[test]
fn a_file_that_opens_no_book_prints_one_row() {
    assert_eq!(printed(&[]), "refused 25 0\n");
    let opening = |lot, w, r| printed(&write(lot, w, r, &[session(1)]).unwrap());
    assert_eq!(opening(0, 0, 0), "refused 2 0\n");
    assert_eq!(opening(1, 0, 0), "refused 3 0\n");
    assert_eq!(opening(1, 101, 1), "refused 4 0\n");
    assert_eq!(printed(&write(0, 1, 1, &[]).unwrap()), "refused 2 0\n");
    for bytes in [1, 15, 17, 32, length(EVENTS) + 1, 200_000] {
        assert_eq!(printed(&vec![0; bytes]), "refused 25 0\n");
    }
    let mut many = vec![0; length(EVENTS + 1)];
    many[..4].copy_from_slice(&3_801_u32.to_le_bytes());
    assert_eq!(printed(&many), "refused 25 0\n");
}

#[test]
fn no_event_prints_nothing_and_the_end_of_a_file_is_not_judged() {
    assert_eq!(printed(&file_of(&[])), "");
    assert_eq!(printed(&file_of(&[session(1)])), "0 0\nmargins\n");
    let ended = "0 0\nmargins\n1 0\nexpiry 0 0 0\nregister 0\n";
    assert_eq!(printed(&file_of(&[session(1), Event::Expiry])), ended);
}

/// The first row of a refused event, a place and a number above 0.
fn first_refused(answers: &str) -> Option<&str> {
    answers.lines().find(|row| {
        let fields: Vec<&str> = row.split(' ').collect();
        let is_number = |field: &&str| field.bytes().all(|byte| byte.is_ascii_digit());
        fields.len() == 2 && fields.iter().all(is_number) && fields[1] != "0"
    })
}

#[test]
fn a_read_ends_at_the_first_refused_event() {
    for seed in 0..800 {
        let file = file(seed);
        let (answers, listing) = (printed(&file), listing(&file));
        let wanted = match first_refused(&answers).and_then(|row| row.split_once(' ')) {
            Some((place, number)) => format!("refused {number} {place}\n"),
            None if listing.starts_with("refused 27 ") => listing.clone(),
            None => answers.clone(),
        };
        let accepted = listing.starts_with("register ");
        let end = || wanted.ends_with(&without_margins(&listing));
        assert!(wanted == listing || accepted && end(), "seed {seed}");
    }
}

#[test]
fn the_program_and_the_library_print_the_same() {
    for input in inputs(&(0..32).collect::<Vec<_>>()) {
        let output = given(CALLS, &[], &input.bytes);
        assert!(
            output.stdout == printed(&input.bytes).as_bytes(),
            "{}",
            input.name
        );
        assert!(output.status.success() && output.stderr.is_empty());
    }
}
