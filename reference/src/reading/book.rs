//! The book and its rules (document 01, "The book").

use crate::reading::value;
use std::fmt;
use std::ops::RangeInclusive;

/// "up to 128 sections numbered from 0"
pub const SECTIONS: usize = 128;
/// "up to 256 notices in filing order"
pub const NOTICES: usize = 256;
/// "a settlement code number 0 to 63"
pub const SETTLEMENT_CODES: usize = 64;
/// "18 elevator above 31"
pub const ELEVATORS: usize = 32;
/// "15 2,000 trades since the last session"
pub const TRADES: u32 = 2_000;
/// "2 lot outside 1 to 1,000 tonnes"
pub const LOT: RangeInclusive<u32> = 1..=1_000;
/// "3 W or R outside 1 to 1,000,000"
pub const STEP: RangeInclusive<u32> = 1..=1_000_000;
/// "4 K outside 1 to 10,000,000"
pub const FACTOR: RangeInclusive<u64> = 1..=10_000_000;
/// "price outside 1 to 10,000,000", of a trade and of a session
pub const PRICE: RangeInclusive<u32> = 1..=10_000_000;
/// "13 lots outside 1 to 10,000"
pub const TRADE_LOTS: RangeInclusive<u32> = 1..=10_000;
/// "19 lots outside 1 to 1,000,000"
pub const NOTICE_LOTS: RangeInclusive<u32> = 1..=1_000_000;
/// "Position is within ±1,000,000"
pub const POSITION: RangeInclusive<i64> = -1_000_000..=1_000_000;

/// "a section code of 7 bytes (ASCII 0-9, A-Z; no two alike)", ordered by bytes.
#[derive(Clone, Copy, Debug, Default, PartialEq, Eq, PartialOrd, Ord, Hash)]
pub struct SectionCode(pub [u8; 7]);

impl SectionCode {
    /// "ASCII 0-9, A-Z"
    pub fn is_allowed(&self) -> bool {
        let allowed = |byte: &u8| byte.is_ascii_digit() || byte.is_ascii_uppercase();
        self.0.iter().all(allowed)
    }
}

impl fmt::Display for SectionCode {
    fn fmt(&self, f: &mut fmt::Formatter<'_>) -> fmt::Result {
        self.0
            .iter()
            .try_for_each(|&byte| write!(f, "{}", char::from(byte)))
    }
}

/// A section of the position register.
#[derive(Clone, Copy, Debug, Default, PartialEq, Eq)]
pub struct Section {
    pub settlement_code: u8,
    pub code: SectionCode,
    pub participant: u32,
    /// The seller mark: opened for a trader of the category Seller (000, 2.1).
    pub seller: bool,
    /// The condition mark: the conditions of delivery are met (000, 2.1).
    pub condition_met: bool,
    /// "its position (lots bought less sold)"
    pub position: i64,
    /// "the signed sum of lots times entry value [...] since the last session,
    /// on top of position times V of that session's price", in kopecks
    pub basis: i64,
}

/// A seller's notice of the intent to deliver at an elevator.
#[derive(Clone, Copy, Debug, Default, PartialEq, Eq)]
pub struct Notice {
    pub section: u8,
    pub elevator: u8,
    pub lots: u32,
}

/// "the kind [...] of the last session"
#[derive(Clone, Copy, Debug, Default, PartialEq, Eq)]
pub enum SessionKind {
    #[default]
    None,
    Day,
    Evening,
}

/// The book of one contract. Its fields are open: any book can be made, and
/// every call judges the one it is given.
#[derive(Clone, Debug, PartialEq, Eq)]
pub struct Book {
    /// Tonnes in a lot.
    pub lot: u32,
    /// W, the value of the price step, in kopecks.
    pub w: u32,
    /// R, the price step, in kopecks.
    pub r: u32,
    pub sections_held: usize,
    pub sections: [Section; SECTIONS],
    pub notices_held: usize,
    pub notices: [Notice; NOTICES],
    pub last_session: SessionKind,
    /// "price 0 while there is none"
    pub last_price: u32,
    pub trades_since: u32,
    pub expired: bool,
}

impl Book {
    /// "a book of noughts, which every call refuses with 1"
    pub fn noughts() -> Book {
        Book {
            lot: 0,
            w: 0,
            r: 0,
            sections_held: 0,
            sections: [Section::default(); SECTIONS],
            notices_held: 0,
            notices: [Notice::default(); NOTICES],
            last_session: SessionKind::None,
            last_price: 0,
            trades_since: 0,
            expired: false,
        }
    }

    /// The sections held, of a book that is good.
    pub fn sections(&self) -> &[Section] {
        &self.sections[..self.sections_held]
    }

    /// The notices held, of a book that is good.
    pub fn notices(&self) -> &[Notice] {
        &self.notices[..self.notices_held]
    }

    /// The section of that number, if it is held.
    pub fn section_held(&self, number: u8) -> Option<&Section> {
        self.sections().get(usize::from(number))
    }

    /// V of a price in this contract, of a book that is good.
    pub fn value(&self, price: u32) -> i64 {
        value::value(price, value::factor(self.w, self.r))
    }

    /// Whether the book breaks none "of these rules, or a limit below".
    pub fn is_good(&self) -> bool {
        self.contract_is_good()
            && self.sections_held <= SECTIONS
            && self.notices_held <= NOTICES
            && self.session_is_good()
            && self.trades_since <= TRADES
            && self.sections().iter().all(|s| self.section_is_good(s))
            && self.codes_differ()
            && self.sums_are_zero()
            && self.notices().iter().all(|n| self.notice_is_good(n))
            && self.notices_differ()
            && self.places_beyond_are_noughts()
    }

    /// The limits of the opening: 2, 3 and 4.
    fn contract_is_good(&self) -> bool {
        LOT.contains(&self.lot)
            && STEP.contains(&self.w)
            && STEP.contains(&self.r)
            && FACTOR.contains(&value::factor(self.w, self.r))
    }

    /// "the kind and price of the last session (price 0 while there is none)",
    /// with the limit of 16.
    fn session_is_good(&self) -> bool {
        match self.last_session {
            SessionKind::None => self.last_price == 0,
            SessionKind::Day | SessionKind::Evening => PRICE.contains(&self.last_price),
        }
    }

    /// "basis within ±(10^15 + 10^13·trades since the session)"
    fn basis_limit(&self) -> i64 {
        1_000_000_000_000_000 + 10_000_000_000_000 * i64::from(self.trades_since)
    }

    /// A section's own rules, with the limits of 6 and 7.
    fn section_is_good(&self, section: &Section) -> bool {
        let limit = self.basis_limit();
        usize::from(section.settlement_code) < SETTLEMENT_CODES
            && section.code.is_allowed()
            && POSITION.contains(&section.position)
            && (-limit..=limit).contains(&section.basis)
    }

    /// "no two alike"
    fn codes_differ(&self) -> bool {
        let number = |s: &Section| s.code.0.iter().fold(0, |n, &byte| n << 8 | u64::from(byte));
        let mut codes: Vec<u64> = self.sections().iter().map(number).collect();
        codes.sort_unstable();
        codes.windows(2).all(|pair| pair[0] != pair[1])
    }

    /// "positions sum to zero, bases too"
    fn sums_are_zero(&self) -> bool {
        let positions: i128 = self.sections().iter().map(|s| i128::from(s.position)).sum();
        let bases: i128 = self.sections().iter().map(|s| i128::from(s.basis)).sum();
        positions == 0 && bases == 0
    }

    /// The limits of 10, 18 and 19.
    fn notice_is_good(&self, notice: &Notice) -> bool {
        self.section_held(notice.section).is_some()
            && usize::from(notice.elevator) < ELEVATORS
            && NOTICE_LOTS.contains(&notice.lots)
    }

    /// The limit of 20: no two notices of a section at one elevator, where each
    /// notice keeps its own limits.
    fn notices_differ(&self) -> bool {
        let mut seen = [[false; ELEVATORS]; SECTIONS];
        self.notices().iter().all(|notice| {
            let place = &mut seen[usize::from(notice.section)][usize::from(notice.elevator)];
            !std::mem::replace(place, true)
        })
    }

    /// "Places beyond those held are noughts."
    fn places_beyond_are_noughts(&self) -> bool {
        let sections = &self.sections[self.sections_held..];
        let notices = &self.notices[self.notices_held..];
        sections.iter().all(|s| *s == Section::default())
            && notices.iter().all(|n| *n == Notice::default())
    }
}
