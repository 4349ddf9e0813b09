//! The cases that are given whatever the seeds.

use super::Case;
use super::arguments::NO_NUMBERS;
use crate::reading::book::SECTIONS;
use crate::reading::failures::ARGUMENTS;
use crate::reading::file::event::Event;
use crate::reading::file::{Reader, contract_in, events_in, write};
use crate::trial::calls::shapes;
use crate::trial::examples::shared;
use crate::trial::generate::{sized, trading};
use crate::trial::hand::{condition, notice, section, session, trade, worked};
use crate::trial::input::Input;

/// The events that 128 sections need.
const EVENTS: usize = 634;

/// Short ones first.
pub(super) fn cases() -> impl Iterator<Item = Case> {
    let nought = trading(0, 0).expect("no event");
    [case("sizes alone", nought, &["0"])]
        .into_iter()
        .chain(shapes().map(|input| given(input, &["0", "1", "2", "3"])))
        .chain(of_worked())
        .chain(of_digits())
        .chain(of_unknown())
        .chain(of_eleven())
        .chain(of_most_arguments())
        .chain(of_full_books())
}

fn case(name: impl Into<String>, file: Vec<u8>, arguments: &[&str]) -> Case {
    given(Input::new(name, file), arguments)
}

fn given(input: Input, arguments: &[&str]) -> Case {
    Case {
        input,
        arguments: arguments.iter().map(|word| word.to_string()).collect(),
    }
}

/// The worked example, and the one in which a line is removed: each section asked,
/// with none named, one, some and all.
fn of_worked() -> Vec<Case> {
    let named: [&[&str]; _] = [&[], &["3"], &["B000001", "1"], &["3", "2", "1", "0"]];
    let mut cases = Vec::new();
    for asked in ["A000001", "1", "02", "C000001"] {
        for named in named {
            let arguments = [&[asked], named].concat();
            let both = [("worked", worked()), ("shared", shared())];
            cases.extend(both.map(|(name, example)| {
                case(format!("the {name} example"), example.file(), &arguments)
            }));
        }
    }
    cases
}

/// A buyer and a seller whose codes are each the other's number, with noughts in
/// front; and a third section, of no position.
fn of_digits() -> [Case; 11] {
    let events = [
        section(1, false, "0000001", 1),
        section(1, true, "0000000", 2),
        section(1, false, "0000003", 3),
        trade(0, 1, 100, 2),
        session(100),
        condition(0, true),
        notice(1, 0, 2),
    ];
    let file = write(10, 1, 1, &events).expect("few events");
    let arguments: [&[&str]; _] = [
        &["0000000"],
        &["0000001", "0000000"],
        &["0000001", "1"],
        &["0", "0000000"],
        &["0", "00000000"],
        &["00000001", "000000"],
        &["0000003", "2", "0"],
        &["2", "0"],
        &["0000002"],
        &["3"],
        &["0", "1", "0000000"],
    ];
    arguments.map(|arguments| case("codes of digits alone", file.clone(), arguments))
}

/// Arguments that mean no section of the worked example, asked and named.
fn of_unknown() -> impl Iterator<Item = Case> {
    let others = [
        "4",
        "255",
        "256",
        "65536",
        "4294967296",
        "0000000",
        "a000001",
        "A00000",
        "A0000011",
    ];
    let unknown = NO_NUMBERS.into_iter().chain(others);
    unknown.flat_map(|unknown| {
        let arguments: [&[&str]; 2] = [&[unknown, "1"], &["0", "1", unknown]];
        arguments.map(|arguments| case("no such section", worked().file(), arguments))
    })
}

/// 11 different sections of 16 named, and 10 of them with one that is unknown.
fn of_eleven() -> [Case; 2] {
    let file = sized(16, EVENTS).expect("room for all");
    let named = ["1", "2", "3", "4", "5", "6", "7", "8", "9", "10"];
    ["11", "16"].map(|last| {
        let arguments = [&["0"], &named[..], &[last]].concat();
        case("eleven named", file.clone(), &arguments)
    })
}

/// As many arguments as may be: all held, and the last one unknown.
fn of_most_arguments() -> [Case; 2] {
    let mut arguments: Vec<String> = (0..ARGUMENTS).map(|i| (i % 4).to_string()).collect();
    ["3", "4"].map(|last| {
        arguments[ARGUMENTS - 1] = last.to_string();
        let arguments: Vec<&str> = arguments.iter().map(String::as_str).collect();
        case("256 arguments", worked().file(), &arguments)
    })
}

/// 128 sections, 256 notices and 375 lines. The seller with fewest lots, who gives
/// first, is asked; ten buyers are named or, where eleven persons share the sections,
/// buyers and sellers.
fn of_full_books() -> [Case; 2] {
    let file = sized(SECTIONS, EVENTS).expect("room for all");
    let persons = of_persons(&file, 11);
    let buyers = [
        "3", "8", "9", "10", "11", "12", "13", "14", "15", "16", "17",
    ];
    let both = ["3", "20", "9", "31", "42", "3", "4", "60", "15", "16", "17"];
    [
        case("a full book", file, &buyers),
        case("a full book of eleven persons", persons, &both),
    ]
}

/// The file with its sections shared by so many persons.
fn of_persons(file: &[u8], persons: u32) -> Vec<u8> {
    let n = events_in(file).expect("a fit length");
    let mut reader = Reader::new(file);
    let events = (0..n).map(|_| reader.read().event.expect("an event that reads"));
    let events = events.map(|event| match event {
        Event::Section {
            settlement_code,
            seller,
            code,
            participant,
        } => Event::Section {
            settlement_code,
            seller,
            code,
            participant: participant % persons,
        },
        other => other,
    });
    let (lot, w, r) = contract_in(file);
    write(lot, w, r, &events.collect::<Vec<_>>()).expect("as many events")
}
