//! Document 01's "Checked by hand" as files: the worked example, and every
//! claim without a star. What each prints follows from the document's words, with
//! the column of noughts that document 02, a, adds.

use super::generate::Contract;
use crate::reading::book::SectionCode;
use crate::reading::file::event::Event;
use crate::reading::file::write;

/// A file, and what a program prints for it.
#[derive(Clone, Debug)]
pub struct Case {
    /// The claim, in the document's words or close to them.
    pub claim: &'static str,
    pub contract: Contract,
    pub events: Vec<Event>,
    pub prints: &'static str,
}

impl Case {
    /// The bytes of its file.
    pub fn file(&self) -> Vec<u8> {
        let Contract { lot, w, r } = self.contract;
        write(lot, w, r, &self.events).expect("few events")
    }
}

/// The fifteen events of the last case, 271 bytes.
pub fn worked() -> Case {
    Case {
        claim: "the worked example",
        contract: Contract {
            lot: 25,
            w: 2_500,
            r: 100,
        },
        events: vec![
            section(1, false, "A000001", 1),
            section(1, true, "A000002", 2),
            section(2, true, "B000001", 3),
            section(3, false, "C000001", 4),
            trade(0, 1, 1_500_000, 2),
            trade(0, 2, 1_500_000, 3),
            trade(3, 2, 1_510_000, 3),
            session(1_520_000),
            condition(0, true),
            condition(1, true),
            condition(2, true),
            notice(1, 0, 2),
            notice(2, 4, 2),
            notice(2, 1, 4),
            Event::Expiry,
        ],
        prints: "\
register 3
A000001 0 A000002 2 50
A000001 4 B000001 2 50
A000001 1 B000001 1 25
A000001 5 0 0 2500000
A000002 2 0 0 -1000000
B000001 3 3 0 -2250000
C000001 0 3 0 750000
",
    }
}

/// Every claim of "Checked by hand" that has no star, the traps among them.
pub fn unstarred() -> Vec<Case> {
    vec![
        opening("W 100, R 1 opens", 100, "register 0\n"),
        opening("W 101, R 1: refused 4", 101, "refused 4 0\n"),
        kopeck(
            "K 1: V(49,999) = 0",
            &[49_999],
            "register 0\nA000001 0 1 0 -1\nA000002 0 1 0 1\n",
        ),
        kopeck(
            "K 1: V(50,000) = 1",
            &[50_000],
            "register 0\nA000001 0 1 0 0\nA000002 0 1 0 0\n",
        ),
        kopeck(
            "trap: with K 1, 49,999 to 50,000 pays 1, not 0",
            &[49_999, 50_000, 50_000],
            "register 0\nA000001 0 1 0 0\nA000002 0 1 0 0\n",
        ),
        smallest_first(),
        split(),
    ]
}

/// W and R 1, no section, a session and an expiry: accepted where it opens.
fn opening(claim: &'static str, w: u32, prints: &'static str) -> Case {
    Case {
        claim,
        contract: Contract { lot: 1, w, r: 1 },
        events: vec![session(1), Event::Expiry],
        prints,
    }
}

/// With K 1 a lot is bought at 100,000, of value 1, and both sections fail: the
/// margins sum to the value of the last session's price less 1.
fn kopeck(claim: &'static str, prices: &[u32], prints: &'static str) -> Case {
    let mut events = vec![
        section(0, false, "A000001", 1),
        section(0, false, "A000002", 2),
        trade(0, 1, 100_000, 1),
    ];
    events.extend(prices.iter().map(|&price| session(price)));
    events.push(Event::Expiry);
    Case {
        claim,
        contract: Contract {
            lot: 1,
            w: 1,
            r: 100_000,
        },
        events,
        prints,
    }
}

/// A contract in which the value of a price is the price.
const EVEN: Contract = Contract {
    lot: 10,
    w: 1,
    r: 1,
};

/// Failing +2, sound -3, -1 and +2 of one code: the -1 gives first, so the -3
/// gives 1 and delivers 2. From the largest it would give 2.
fn smallest_first() -> Case {
    Case {
        claim: "trap: step 2 takes the smallest section first",
        contract: EVEN,
        events: vec![
            section(1, false, "A000001", 1),
            section(1, true, "A000002", 2),
            section(1, true, "A000003", 3),
            section(1, false, "A000004", 4),
            trade(0, 1, 100, 2),
            trade(3, 1, 100, 1),
            trade(3, 2, 100, 1),
            session(100),
            condition(1, true),
            condition(2, true),
            condition(3, true),
            notice(1, 0, 3),
            notice(2, 1, 1),
            Event::Expiry,
        ],
        prints: "\
register 1
A000004 0 A000002 2 20
A000001 0 2 0 0
A000002 2 1 0 0
A000003 0 1 0 0
A000004 2 0 0 0
",
    }
}

/// Sound +3 and -1 of one code, -2 of another: of the +3 one lot is inside and
/// two are outside. Sent outside whole it would leave the -1 no buyer.
fn split() -> Case {
    Case {
        claim: "trap: a split section is not sent outside whole",
        contract: EVEN,
        events: vec![
            section(1, false, "A000001", 1),
            section(1, true, "A000002", 2),
            section(2, true, "B000001", 3),
            trade(0, 1, 100, 1),
            trade(0, 2, 100, 2),
            session(100),
            condition(0, true),
            condition(1, true),
            condition(2, true),
            notice(1, 3, 1),
            notice(2, 5, 2),
            Event::Expiry,
        ],
        prints: "\
register 2
A000001 3 A000002 1 10
A000001 5 B000001 2 20
A000001 3 0 0 0
A000002 1 0 0 0
B000001 2 0 0 0
",
    }
}

/// A section code from text.
pub fn code(text: &str) -> SectionCode {
    SectionCode(text.as_bytes().try_into().expect("seven bytes"))
}

pub fn section(settlement_code: u8, seller: bool, text: &str, participant: u32) -> Event {
    Event::Section {
        settlement_code,
        seller,
        code: code(text),
        participant,
    }
}

pub fn trade(buyer: u8, seller: u8, price: u32, lots: u32) -> Event {
    Event::Trade {
        buyer,
        seller,
        price,
        lots,
    }
}

pub fn session(price: u32) -> Event {
    Event::Session { price }
}

pub fn condition(section: u8, met: bool) -> Event {
    Event::Condition { section, met }
}

pub fn notice(section: u8, elevator: u8, lots: u32) -> Event {
    Event::Notice {
        section,
        elevator,
        lots,
    }
}
