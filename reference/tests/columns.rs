//! The operands by column: a file worked by hand, many sizes there and back, the
//! refusals, and the program.

mod common;

use common::programs::given;
use wheat_delivery::reading::columns::{printed, turn, turn_back};
use wheat_delivery::reading::file::length;
use wheat_delivery::reading::refusal::Refusal;
use wheat_delivery::trial::columns::random_bytes;
use wheat_delivery::trial::examples::examples;

const COLUMNS: &str = env!("CARGO_BIN_EXE_columns");

type Call = fn(&[u8], &mut [u8]) -> Result<(), Refusal>;
const CALLS: [Call; 2] = [turn, turn_back];

/// 3 events, lot 25, W 2,500, R 100; kinds 1, 3 and 6.
const HEAD: &[u8; 19] = b"\x03\0\0\0\x19\0\0\0\xC4\x09\0\0\x64\0\0\0\x01\x03\x06";
const BY_EVENT: &[u8; 48] = b"abcdefghijklmnopABCDEFGHIJKLMNOP0123456789!?+-*/";
const BY_COLUMN: &[u8; 48] = b"aA0bB1cC2dD3eE4fF5gG6hH7iI8jJ9kK!lL?mM+nN-oO*pP/";

/// Numbers of events: all small ones, and those near the most.
fn sizes() -> impl Iterator<Item = usize> {
    (0..=200).chain(3_760..=3_800)
}

fn file_of(events: usize) -> Vec<u8> {
    random_bytes(events as u64, length(events))
}

/// The list of an accepted call.
fn done(call: Call, file: &[u8]) -> Vec<u8> {
    let mut lent = vec![170; file.len()];
    assert_eq!(call(file, &mut lent), Ok(()), "{} bytes", file.len());
    lent
}

/// Both calls refuse these lengths with 25 and write nothing.
fn assert_refused(file: usize, lent: usize) {
    let bytes = random_bytes(1, file);
    for call in CALLS {
        let mut list = vec![170; lent];
        let answer = call(&bytes, &mut list).map_err(Refusal::number);
        assert_eq!(answer, Err(25), "{file} and {lent} bytes");
        assert_eq!(list, vec![170; lent]);
    }
}

#[test]
fn three_events_by_hand() {
    let file = [&HEAD[..], BY_EVENT].concat();
    let turned = [&HEAD[..], BY_COLUMN].concat();
    assert_eq!(done(turn, &file), turned);
    assert_eq!(done(turn_back, &turned), file);
}

#[test]
fn no_event_or_one_leaves_all_bytes_as_they_are() {
    for file in [file_of(0), file_of(1)] {
        assert_eq!(done(turn, &file), file);
        assert_eq!(done(turn_back, &file), file);
    }
}

#[test]
fn every_byte_has_its_place() {
    for n in sizes() {
        let file = file_of(n);
        let turned = done(turn, &file);
        assert_eq!(turned[..16 + n], file[..16 + n]);
        for (i, operand) in file[16 + n..].chunks(16).enumerate() {
            for (k, &byte) in operand.iter().enumerate() {
                assert_eq!(turned[16 + n + n * k + i], byte, "{n} events, {i}, {k}");
            }
        }
    }
}

#[test]
fn each_followed_by_the_other_gives_the_first_bytes() {
    for file in sizes().map(file_of) {
        assert_eq!(done(turn_back, &done(turn, &file)), file);
        assert_eq!(done(turn, &done(turn_back, &file)), file);
    }
}

#[test]
fn what_the_file_says_is_not_judged() {
    for said in [0_u32, 1, 3, 3_801, u32::MAX] {
        let mut file = file_of(2);
        file[..4].copy_from_slice(&said.to_le_bytes());
        assert_eq!(done(turn, &file)[..18], file[..18]);
        assert_eq!(done(turn_back, &done(turn, &file)), file);
    }
}

#[test]
fn a_length_that_is_not_fit_is_refused() {
    let fit = |bytes: &usize| (0..4).any(|n| length(n) == *bytes);
    for bytes in (0..=68).filter(|bytes| !fit(bytes)) {
        assert_refused(bytes, bytes);
    }
    for n in sizes() {
        assert_refused(length(n) - 1, length(n) - 1);
        assert_refused(length(n) + 1, length(n) + 1);
    }
    for n in [3_801, 3_802, 11_764, 65_536] {
        assert_refused(length(n), length(n));
    }
}

#[test]
fn unequal_lengths_are_refused_also_where_each_is_fit() {
    for (file, lent) in [(0, 1), (1, 0), (3, 2), (0, 3_800), (3_800, 3_799)] {
        assert_refused(length(file), length(lent));
    }
    for other in [0, 15, 66, 68, length(3_801)] {
        assert_refused(length(3), other);
        assert_refused(other, length(3));
    }
}

#[test]
fn the_program_prints_the_file_turned_and_turned_back() {
    for file in [0, 1, 3, 33, 3_800].map(file_of) {
        let turned = given(COLUMNS, &[], &file);
        assert_eq!(turned.stdout, done(turn, &file));
        assert!(turned.status.success() && turned.stderr.is_empty());
        let back = given(COLUMNS, &["back"], &turned.stdout);
        assert_eq!(back.stdout, file);
        assert!(back.status.success() && back.stderr.is_empty());
    }
}

#[test]
fn the_program_turns_the_examples() {
    for (name, file) in examples() {
        let turned = given(COLUMNS, &[], &file).stdout;
        assert_eq!(turned, printed(false, &file), "{name}");
        assert_eq!(given(COLUMNS, &["back"], &turned).stdout, file, "{name}");
    }
}

#[test]
fn a_refused_file_is_a_normal_answer() {
    for bytes in [0, 15, 32, length(3_801), 200_000] {
        for arguments in [&[][..], &["back"]] {
            let output = given(COLUMNS, arguments, &random_bytes(1, bytes));
            assert_eq!(output.stdout, b"refused 25\n");
            assert!(output.status.success() && output.stderr.is_empty());
        }
    }
}

#[test]
fn other_arguments_are_turned_away() {
    let two = ["back", "back"];
    let others: [&[&str]; 6] = [&["forth"], &["bac"], &["backs"], &["Back"], &[""], &two];
    for arguments in others {
        let output = given(COLUMNS, arguments, b"");
        assert!(output.stdout.is_empty(), "{arguments:?}");
        assert_eq!(output.stderr, b"columns [back] < FILE\n");
        assert_eq!(output.status.code(), Some(2));
    }
}
