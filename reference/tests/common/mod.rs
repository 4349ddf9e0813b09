//! Books and files that several tests use, and programs that they run.
#![allow(dead_code)]

pub mod expiry_rows;
pub mod programs;

use wheat_delivery::reading::book::{Book, Notice, Section, SessionKind};
use wheat_delivery::reading::calls::{Counts, ExpiryLists, open};
use wheat_delivery::reading::listing::Lists;
use wheat_delivery::reading::refusal::Refusal;
use wheat_delivery::trial::demand::Entry;
use wheat_delivery::trial::hand::code;

/// A book with K 100,000, so that the value of a price is the price.
pub fn opened() -> Book {
    let (answer, book) = open(25, 100, 100);
    assert_eq!(answer, Ok(()));
    book
}

/// A section for `book_of`: settlement code, section code, position, sound.
pub type Row<'a> = (u8, &'a str, i64, bool);

/// A book ready for its expiry, each section another person's. A sound short
/// section has the notices given or, if there are none, one of all its lots at
/// elevator 0.
pub fn book_of(rows: &[Row], notices: &[(u8, u8, u32)]) -> Book {
    let mut book = opened();
    for &(settlement_code, text, position, sound) in rows {
        book.sections[book.sections_held] = Section {
            settlement_code,
            code: code(text),
            participant: 7 + book.sections_held as u32,
            seller: true,
            condition_met: sound,
            position,
            basis: 100 * position,
        };
        book.sections_held += 1;
    }
    for &(section, elevator, lots) in notices {
        add_notice(&mut book, section, elevator, lots);
    }
    for (number, &(_, _, position, sound)) in rows.iter().enumerate() {
        let has = book
            .notices()
            .iter()
            .any(|n| usize::from(n.section) == number);
        if position < 0 && sound && !has {
            add_notice(&mut book, number as u8, 0, position.unsigned_abs() as u32);
        }
    }
    book.last_session = SessionKind::Day;
    book.last_price = 100;
    assert!(book.is_good(), "the book of the test is good");
    book
}

fn add_notice(book: &mut Book, section: u8, elevator: u8, lots: u32) {
    book.notices[book.notices_held] = Notice {
        section,
        elevator,
        lots,
    };
    book.notices_held += 1;
}

/// What an expiry of the book hands out, in lists of full length.
#[derive(Debug, PartialEq, Eq)]
pub struct Expired {
    pub counts: Counts,
    pub register: Vec<(u8, u8, u8, u32)>,
    pub delivered: Vec<u32>,
    pub terminated: Vec<u32>,
    pub lapsed: Vec<u32>,
}

/// The expiry of a copy of the book.
pub fn expire(book: &Book) -> Result<Expired, Refusal> {
    let mut book = book.clone();
    let mut lists = Lists::full();
    let counts = book.expiry(lists.lend().expiry)?;
    let line = |i: usize| {
        (
            lists.buyers[i],
            lists.elevators[i],
            lists.sellers[i],
            lists.lots[i],
        )
    };
    Ok(Expired {
        counts,
        register: (0..counts.kept).map(line).collect(),
        delivered: lists.delivered[..book.sections_held].to_vec(),
        terminated: lists.terminated[..book.sections_held].to_vec(),
        lapsed: lists.lapsed[..book.sections_held].to_vec(),
    })
}

/// Lists for an expiry, of the lengths given.
pub struct Lent {
    pub bytes: [Vec<u8>; 3],
    pub lots: Vec<u32>,
    pub delivered: Vec<u32>,
    pub terminated: Vec<u32>,
    pub lapsed: Vec<u32>,
}

impl Lent {
    /// The lengths of the four register lists, and of delivered, terminated and
    /// lapsed.
    pub fn new(register: [usize; 4], sections: [usize; 3]) -> Lent {
        let [buyers, elevators, sellers, lots] = register;
        let [delivered, terminated, lapsed] = sections;
        Lent {
            bytes: [vec![201; buyers], vec![202; elevators], vec![203; sellers]],
            lots: vec![204; lots],
            delivered: vec![205; delivered],
            terminated: vec![206; terminated],
            lapsed: vec![207; lapsed],
        }
    }

    pub fn lend(&mut self) -> ExpiryLists<'_> {
        let [buyers, elevators, sellers] = &mut self.bytes;
        ExpiryLists {
            buyers,
            elevators,
            sellers,
            lots: &mut self.lots,
            delivered: &mut self.delivered,
            terminated: &mut self.terminated,
            lapsed: &mut self.lapsed,
        }
    }

    pub fn is_untouched(&self) -> bool {
        let all = |bytes: &[u8], byte: u8| bytes.iter().all(|&b| b == byte);
        let each = |numbers: &[u32], number: u32| numbers.iter().all(|&n| n == number);
        all(&self.bytes[0], 201)
            && all(&self.bytes[1], 202)
            && all(&self.bytes[2], 203)
            && each(&self.lots, 204)
            && each(&self.delivered, 205)
            && each(&self.terminated, 206)
            && each(&self.lapsed, 207)
    }
}

/// The counts of an expiry that removed no line.
pub fn all_kept(pairs: usize, lines: usize) -> Counts {
    Counts {
        pairs,
        lines,
        kept: lines,
    }
}

/// The listing with a field of the rows of its sections left out.
pub fn without_field(listing: &str, field: usize) -> String {
    let first = listing.lines().next().unwrap();
    let lines: usize = first.strip_prefix("register ").unwrap().parse().unwrap();
    let row = |(i, row): (usize, &str)| {
        let mut fields: Vec<&str> = row.split(' ').collect();
        if i > lines {
            fields.remove(field);
        }
        fields.join(" ") + "\n"
    };
    listing.lines().enumerate().map(row).collect()
}

/// The listing without the sums of margins.
pub fn without_margins(listing: &str) -> String {
    without_field(listing, 4)
}

/// The listing without the lapsed lots.
pub fn without_lapsed(listing: &str) -> String {
    without_field(listing, 3)
}

/// A line of a register, for histories.
pub fn entry(buyer: u8, elevator: u8, seller: u8, lots: u32) -> Entry {
    Entry {
        buyer,
        elevator,
        seller,
        lots,
    }
}
