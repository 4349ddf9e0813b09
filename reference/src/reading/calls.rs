//! The calls on a book and their refusals (document 01, "The book").
//!
//! Each call has a list of its faults: every refusal whose condition holds, in
//! document 01's order. The first of them refuses the call. A condition that
//! speaks of a section does not hold of a section that is not held.

use crate::reading::book::{
    Book, ELEVATORS, FACTOR, LOT, NOTICE_LOTS, NOTICES, Notice, POSITION, PRICE, SECTIONS,
    SETTLEMENT_CODES, STEP, Section, SectionCode, SessionKind, TRADE_LOTS, TRADES,
};
use crate::reading::expiry::{Settlement, settle};
use crate::reading::refusal::{Refusal, first, holding};
use crate::reading::value;

/// "any of the four register lists [...] shorter than 382"
pub const REGISTER: usize = 382;

/// "The answer of expiry carries the pairs formed and the lines formed, over
/// all passes", "and beside them the lines kept" (document 02, a).
#[derive(Clone, Copy, Debug, Default, PartialEq, Eq)]
pub struct Counts {
    pub pairs: usize,
    pub lines: usize,
    pub kept: usize,
}

/// The lists lent to an expiry: "the four register lists (buyer's number,
/// elevator, seller's number, lots)", the delivered and the terminated list, and
/// "a third section list, "lapsed"" (document 02, a).
#[derive(Debug)]
pub struct ExpiryLists<'a> {
    pub buyers: &'a mut [u8],
    pub elevators: &'a mut [u8],
    pub sellers: &'a mut [u8],
    pub lots: &'a mut [u32],
    pub delivered: &'a mut [u32],
    pub terminated: &'a mut [u32],
    pub lapsed: &'a mut [u32],
}

impl ExpiryLists<'_> {
    /// The length of the shortest register list, which 23 judges.
    pub fn register_room(&self) -> usize {
        let sections = self.buyers.len().min(self.sellers.len());
        sections.min(self.elevators.len()).min(self.lots.len())
    }

    /// The length of the shortest list by section, which 24 judges: the lapsed
    /// one "falls under refusal 24 like the other two" (document 02, a).
    pub fn section_room(&self) -> usize {
        let both = self.delivered.len().min(self.terminated.len());
        both.min(self.lapsed.len())
    }

    /// Writes the lines kept from the start of the register lists and an entry
    /// for each section held. "Entries past those used remain."
    pub fn write(&mut self, settlement: &Settlement) {
        for (i, line) in settlement.register.iter().enumerate() {
            self.buyers[i] = u8::try_from(line.buyer).expect("a section number");
            self.elevators[i] = line.elevator;
            self.sellers[i] = u8::try_from(line.seller).expect("a section number");
            self.lots[i] = u32::try_from(line.lots).expect("lots of a line");
        }
        let sections = settlement.delivered.len();
        self.delivered[..sections].copy_from_slice(&settlement.delivered);
        self.terminated[..sections].copy_from_slice(&settlement.terminated);
        self.lapsed[..sections].copy_from_slice(&settlement.lapsed);
    }
}

impl Settlement {
    /// The counts an accepted expiry answers.
    pub fn counts(&self) -> Counts {
        Counts {
            pairs: self.pairs(),
            lines: self.lines().count(),
            kept: self.register.len(),
        }
    }
}

/// Opening: "2 lot outside 1 to 1,000 tonnes; 3 W or R outside 1 to 1,000,000;
/// 4 K outside 1 to 10,000,000."
pub fn opening_faults(lot: u32, w: u32, r: u32) -> Vec<Refusal> {
    holding([
        (!LOT.contains(&lot), Refusal::LotSize),
        (
            !STEP.contains(&w) || !STEP.contains(&r),
            Refusal::StepOrItsValue,
        ),
        (
            r != 0 && !FACTOR.contains(&value::factor(w, r)),
            Refusal::Factor,
        ),
    ])
}

/// **Opening**. "a refused opening hands out a book of noughts"
pub fn open(lot: u32, w: u32, r: u32) -> (Result<(), Refusal>, Book) {
    let answer = first(opening_faults(lot, w, r));
    let mut book = Book::noughts();
    if answer.is_ok() {
        (book.lot, book.w, book.r) = (lot, w, r);
    }
    (answer, book)
}

impl Book {
    /// "A call given a book that breaks one of these rules, or a limit below,
    /// refuses 1 before all else"; the further conditions are asked of a good
    /// book only.
    pub(super) fn faults<const N: usize>(
        &self,
        further: impl FnOnce() -> [(bool, Refusal); N],
    ) -> Vec<Refusal> {
        if self.is_good() {
            holding(further())
        } else {
            vec![Refusal::BrokenBook]
        }
    }

    /// Section: "5 expired; 6 code number above 63; 7 a byte not allowed in the
    /// section code; 8 section code held already; 9 128 sections held."
    pub fn section_faults(&self, settlement_code: u8, code: SectionCode) -> Vec<Refusal> {
        self.faults(|| {
            let above = usize::from(settlement_code) >= SETTLEMENT_CODES;
            let held = self.sections().iter().any(|s| s.code == code);
            [
                (self.expired, Refusal::Expired),
                (above, Refusal::SettlementCode),
                (!code.is_allowed(), Refusal::CodeByte),
                (held, Refusal::CodeHeld),
                (self.sections_held == SECTIONS, Refusal::SectionsFull),
            ]
        })
    }

    /// **Section**: opens a section, its condition mark "first "not met"".
    pub fn section(
        &mut self,
        settlement_code: u8,
        seller: bool,
        code: SectionCode,
        participant: u32,
    ) -> Result<(), Refusal> {
        first(self.section_faults(settlement_code, code))?;
        self.sections[self.sections_held] = Section {
            settlement_code,
            code,
            participant,
            seller,
            ..Section::default()
        };
        self.sections_held += 1;
        Ok(())
    }

    /// Trade: "5; 10 unknown section; 11 buyer is seller; 12 price outside 1 to
    /// 10,000,000 or no multiple of R; 13 lots outside 1 to 10,000; 14 either
    /// position would pass its limit; 15 2,000 trades since the last session."
    pub fn trade_faults(&self, buyer: u8, seller: u8, price: u32, lots: u32) -> Vec<Refusal> {
        self.faults(|| {
            let (bought, sold) = (self.section_held(buyer), self.section_held(seller));
            let unknown = bought.is_none() || sold.is_none();
            let price_out = !PRICE.contains(&price) || !price.is_multiple_of(self.r);
            let lots_out = !TRADE_LOTS.contains(&lots);
            let lots = i64::from(lots);
            let passes = |s: &Section, lots: i64| !POSITION.contains(&(s.position + lots));
            let buyer_passes = bought.is_some_and(|s| passes(s, lots));
            let seller_passes = sold.is_some_and(|s| passes(s, -lots));
            [
                (self.expired, Refusal::Expired),
                (unknown, Refusal::UnknownSection),
                (buyer == seller, Refusal::BuyerIsSeller),
                (price_out, Refusal::TradePrice),
                (lots_out, Refusal::TradeLots),
                (buyer_passes || seller_passes, Refusal::PositionLimit),
                (self.trades_since == TRADES, Refusal::TradesFull),
            ]
        })
    }

    /// **Trade**: lots and "lots times entry value (V of the trade's price),
    /// bought plus, sold minus".
    pub fn trade(&mut self, buyer: u8, seller: u8, price: u32, lots: u32) -> Result<(), Refusal> {
        first(self.trade_faults(buyer, seller, price, lots))?;
        let lots = i64::from(lots);
        let worth = lots * self.value(price);
        let bought = &mut self.sections[usize::from(buyer)];
        bought.position += lots;
        bought.basis += worth;
        let sold = &mut self.sections[usize::from(seller)];
        sold.position -= lots;
        sold.basis -= worth;
        self.trades_since += 1;
        Ok(())
    }

    /// Session: "5; 16 price outside 1 to 10,000,000; 17 margin list shorter
    /// than the sections held."
    pub fn session_faults(&self, price: u32, room: usize) -> Vec<Refusal> {
        self.faults(|| {
            [
                (self.expired, Refusal::Expired),
                (!PRICE.contains(&price), Refusal::SessionPrice),
                (room < self.sections_held, Refusal::MarginListShort),
            ]
        })
    }

    /// **Session**: "Each section's margin is position·V(price) less basis,
    /// signed; that becomes its list entry, later entries remain, and basis
    /// becomes position·V(price)."
    pub fn session(&mut self, price: u32, margins: &mut [i64]) -> Result<(), Refusal> {
        first(self.session_faults(price, margins.len()))?;
        let value = self.value(price);
        let sections = &mut self.sections[..self.sections_held];
        for (section, margin) in sections.iter_mut().zip(margins) {
            let worth = section.position * value;
            *margin = worth - section.basis;
            section.basis = worth;
        }
        self.last_session = next_session(self.last_session);
        self.last_price = price;
        self.trades_since = 0;
        Ok(())
    }

    /// Condition: "5; 10."
    pub fn condition_faults(&self, section: u8) -> Vec<Refusal> {
        self.faults(|| {
            [
                (self.expired, Refusal::Expired),
                (
                    self.section_held(section).is_none(),
                    Refusal::UnknownSection,
                ),
            ]
        })
    }

    /// **Condition** (section, met or not).
    pub fn condition(&mut self, section: u8, met: bool) -> Result<(), Refusal> {
        first(self.condition_faults(section))?;
        self.sections[usize::from(section)].condition_met = met;
        Ok(())
    }

    /// Notice: "5; 10; 18 elevator above 31; 19 lots outside 1 to 1,000,000;
    /// 20 that section has a notice at that elevator; 21 256 notices held."
    pub fn notice_faults(&self, section: u8, elevator: u8, lots: u32) -> Vec<Refusal> {
        self.faults(|| {
            let unknown = self.section_held(section).is_none();
            let above = usize::from(elevator) >= ELEVATORS;
            let same = |n: &Notice| n.section == section && n.elevator == elevator;
            [
                (self.expired, Refusal::Expired),
                (unknown, Refusal::UnknownSection),
                (above, Refusal::Elevator),
                (!NOTICE_LOTS.contains(&lots), Refusal::NoticeLots),
                (self.notices().iter().any(same), Refusal::NoticeHeld),
                (self.notices_held == NOTICES, Refusal::NoticesFull),
            ]
        })
    }

    /// **Notice** (section, elevator, lots), kept "in filing order".
    pub fn notice(&mut self, section: u8, elevator: u8, lots: u32) -> Result<(), Refusal> {
        first(self.notice_faults(section, elevator, lots))?;
        self.notices[self.notices_held] = Notice {
            section,
            elevator,
            lots,
        };
        self.notices_held += 1;
        Ok(())
    }

    /// Expiry: "5; 22 the last session is none or evening, or a trade followed
    /// it; 23 any of the four register lists [...] shorter than 382; 24 the
    /// delivered or terminated list shorter than the sections held", or the
    /// lapsed one.
    pub fn expiry_faults(&self, register_room: usize, section_room: usize) -> Vec<Refusal> {
        self.faults(|| {
            let after_day = self.last_session == SessionKind::Day && self.trades_since == 0;
            [
                (self.expired, Refusal::Expired),
                (!after_day, Refusal::NotAfterDaySession),
                (register_room < REGISTER, Refusal::RegisterListShort),
                (section_room < self.sections_held, Refusal::SectionListShort),
            ]
        })
    }

    /// Expiry without its lists: judged by the room they have, and "The book
    /// ends here, only its expired mark changing."
    pub fn expire(
        &mut self,
        register_room: usize,
        section_room: usize,
    ) -> Result<Settlement, Refusal> {
        first(self.expiry_faults(register_room, section_room))?;
        let settlement = settle(self);
        self.expired = true;
        Ok(settlement)
    }

    /// **Expiry**.
    pub fn expiry(&mut self, mut lists: ExpiryLists<'_>) -> Result<Counts, Refusal> {
        let settlement = self.expire(lists.register_room(), lists.section_room())?;
        lists.write(&settlement);
        Ok(settlement.counts())
    }
}

/// "Sessions alternate, day first."
fn next_session(last: SessionKind) -> SessionKind {
    match last {
        SessionKind::Day => SessionKind::Evening,
        SessionKind::None | SessionKind::Evening => SessionKind::Day,
    }
}
