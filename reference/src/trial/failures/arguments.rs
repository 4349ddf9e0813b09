//! Arguments for the program `failures`: sections that are asked and named, by code
//! or by number, and faults among them.

use crate::reading::book::Book;
use crate::reading::failures::{ARGUMENTS, NAMED, section_meant};
use crate::trial::random::Random;

/// What is wrong with the arguments.
#[derive(Clone, Copy, Debug, PartialEq, Eq)]
pub enum Fault {
    AskedUnknown,
    NamedUnknown,
    /// More than 10 are named, no two of them one section where there are so many.
    TooMany,
    Twice,
    TwiceOfTooMany,
    UnknownOfTooMany,
    UnknownAndTwice,
}

/// How many sections are named, where so many are held, and what is wrong.
#[derive(Clone, Copy, Debug)]
pub struct Choice {
    pub named: usize,
    pub fault: Option<Fault>,
}

/// Numbers that a program may take for small ones: they go round at 8, 16, 32 and 64
/// bits.
const ROUND: [u128; 4] = [1 << 8, 1 << 16, 1 << 32, 1 << 64];
/// No numbers, though some look like one.
pub(super) const NO_NUMBERS: [&str; 16] = [
    "", "-1", "-0", "+0", "+1", " 0", "0 ", "0.", "1,0", "0x1", "1e0", "one", "0\n", "\t1", "٠",
    "½",
];
/// The bytes of a number with noughts in front; seven would be a code.
const WIDTHS: [usize; 7] = [2, 3, 4, 6, 8, 12, 40];

impl Choice {
    /// The section asked, then those named.
    pub fn arguments(self, random: &mut Random, book: &Book) -> Vec<String> {
        if book.sections_held == 0 {
            return of_no_book(random);
        }
        let count = self.count(random, book);
        let asked = asked(random, book);
        let named = named(random, book, asked, count);
        let mut arguments = vec![written(random, book, asked)];
        arguments.extend(named.iter().map(|&section| written(random, book, section)));
        self.spoil(random, book, &mut arguments);
        arguments
    }

    fn count(self, random: &mut Random, book: &Book) -> usize {
        let count = match self.fault {
            Some(Fault::TooMany | Fault::TwiceOfTooMany | Fault::UnknownOfTooMany) => {
                NAMED + random.pick(&[1, 1, 2, 5])
            }
            Some(Fault::NamedUnknown | Fault::Twice | Fault::UnknownAndTwice) => self.named.max(1),
            Some(Fault::AskedUnknown) | None => self.named,
        };
        count.min(book.sections_held)
    }

    fn spoil(self, random: &mut Random, book: &Book, arguments: &mut Vec<String>) {
        match self.fault {
            Some(Fault::AskedUnknown) => arguments[0] = unknown(random, book),
            Some(Fault::NamedUnknown) => one_unknown(random, book, arguments),
            Some(Fault::Twice) => one_twice(random, book, arguments),
            Some(Fault::TwiceOfTooMany) => {
                let most = random.pick(&[NAMED + 2, NAMED + 2, ARGUMENTS]);
                while arguments.len() < most {
                    one_twice(random, book, arguments);
                }
            }
            Some(Fault::UnknownOfTooMany) => {
                while arguments.len() < NAMED + 2 {
                    one_twice(random, book, arguments);
                }
                one_unknown(random, book, arguments);
            }
            Some(Fault::UnknownAndTwice) => {
                one_twice(random, book, arguments);
                arguments.push(unknown(random, book));
                if random.percent(50) {
                    arguments.swap(0, 1);
                }
            }
            Some(Fault::TooMany) | None => {}
        }
    }
}

/// Arguments where there is no section to choose from.
pub fn of_no_book(random: &mut Random) -> Vec<String> {
    (0..random.from_to(1, 3)).map(|i| i.to_string()).collect()
}

/// A section that is asked: one without a position, one whose person is on the other
/// side too, or any.
fn asked(random: &mut Random, book: &Book) -> u8 {
    let such = |holds: &dyn Fn(usize) -> bool| -> Vec<u8> {
        let sections = (0..book.sections_held).filter(|&section| holds(section));
        sections.map(|section| section as u8).collect()
    };
    let some = match random.below(10) {
        0 => such(&|section| book.sections[section].position == 0),
        1..6 => such(&|section| may_lapse(book, section)),
        _ => vec![],
    };
    match some.as_slice() {
        [] => random.below(book.sections_held) as u8,
        some => random.pick(some),
    }
}

/// So many different sections, in any order: often those with a position before the
/// others, and the one asked first of all or last.
fn named(random: &mut Random, book: &Book, asked: u8, count: usize) -> Vec<u8> {
    let mut sections: Vec<u8> = (0..book.sections_held as u8).collect();
    random.shuffle(&mut sections);
    if random.percent(70) {
        sections.sort_by_key(|&section| book.sections[usize::from(section)].position == 0);
    }
    let first = random.percent(30);
    sections.sort_by_key(|&section| (section == asked) != first);
    sections.truncate(count);
    random.shuffle(&mut sections);
    sections
}

/// Whether the section's person is on the other side too.
pub(super) fn may_lapse(book: &Book, section: usize) -> bool {
    let own = &book.sections[section];
    let mut sections = book.sections().iter();
    sections.any(|other| {
        other.participant == own.participant && other.position.signum() * own.position.signum() < 0
    })
}

/// A section by its code or by its number, noughts in front of some.
fn written(random: &mut Random, book: &Book, section: u8) -> String {
    let code = book.sections[usize::from(section)].code.to_string();
    let width = random.pick(&WIDTHS);
    match random.below(6) {
        0..3 => code,
        3 | 4 => section.to_string(),
        _ => format!("{section:0>width$}"),
    }
}

/// Puts a section that is not held in the place of one that is named, or after them.
fn one_unknown(random: &mut Random, book: &Book, arguments: &mut Vec<String>) {
    let place = 1 + random.below(arguments.len());
    let unknown = unknown(random, book);
    match arguments.get_mut(place) {
        Some(argument) => *argument = unknown,
        None => arguments.push(unknown),
    }
}

/// Names one of those named once more, written as before or otherwise; the section
/// asked, twice, where none is named.
fn one_twice(random: &mut Random, book: &Book, arguments: &mut Vec<String>) {
    if arguments.len() == 1 {
        arguments.push(arguments[0].clone());
    }
    let again = arguments[1 + random.below(arguments.len() - 1)].clone();
    let again = match section_meant(book, again.as_bytes()) {
        Some(section) if random.percent(70) => written(random, book, section),
        _ => again,
    };
    let place = 1 + random.below(arguments.len());
    arguments.insert(place, again);
}

/// An argument that means no section held: a number, a code, or neither.
fn unknown(random: &mut Random, book: &Book) -> String {
    loop {
        let held = book.sections_held;
        let section = random.below(held);
        let code = book.sections[section].code.to_string();
        let argument = match random.below(12) {
            0..2 => held.to_string(),
            2 => random.pick(&[held + 1, 127, 128, 255, 999]).to_string(),
            3 | 4 => (random.pick(&ROUND) + section as u128).to_string(),
            5..8 => random.pick(&NO_NUMBERS).to_string(),
            8 => format!("{section:07}"),
            9 => code.to_lowercase(),
            10 => code[..6].to_string() + random.pick(&["", "0", "Z", "00", "é"]),
            _ => format!(" {}", &code[random.below(2)..]),
        };
        if section_meant(book, argument.as_bytes()).is_none() {
            return argument;
        }
    }
}
