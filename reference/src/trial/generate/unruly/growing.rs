//! A list of calls that grows, with the book as it stands after them.

use super::super::contracts::{Prices, contract};
use super::super::faults::{faulty, lots_that_fit, malformed, wild_event, wild_notice, wild_trade};
use super::super::markets::new_code;
use super::super::participants::Participants;
use super::super::{Contract, Draft, Raw};
use crate::reading::book::{Book, SessionKind};
use crate::reading::calls::open;
use crate::reading::file::EVENTS;
use crate::reading::file::event::{Event, decode, encode};
use crate::reading::file::whole::Replay;
use crate::trial::hand::{condition, notice, session, trade};
use crate::trial::random::Random;
use std::ops::RangeInclusive;

pub(super) struct Growing<'a> {
    pub(super) random: &'a mut Random,
    draft: Draft,
    replay: Replay,
    prices: Prices,
    participants: Participants,
}

impl Growing<'_> {
    /// An empty list in any contract that opens.
    pub(super) fn new(random: &mut Random) -> Growing<'_> {
        let contract = contract(random, 20);
        Growing::in_contract(random, contract)
    }

    pub(super) fn in_contract(random: &mut Random, contract: Contract) -> Growing<'_> {
        let Contract { lot, w, r } = contract;
        let prices = Prices::new(random, r);
        let participants = Participants::new(random);
        Growing {
            random,
            draft: Draft::new(contract, &[]),
            replay: Replay::new(open(lot, w, r).1),
            prices,
            participants,
        }
    }

    pub(super) fn book(&self) -> &Book {
        &self.replay.book
    }

    /// The events that are still free.
    pub(super) fn room(&self) -> usize {
        EVENTS - self.draft.events.len()
    }

    pub(super) fn draft(self) -> Draft {
        self.draft
    }

    pub(super) fn add(&mut self, event: Event) {
        self.add_raw(encode(&event));
    }

    /// Adds an event, readable or not, and makes its call.
    pub(super) fn add_raw(&mut self, raw: Raw) {
        self.draft.events.push(raw);
        if let Ok(event) = decode(raw.0, &raw.1) {
            let _ = self.replay.take(&event, usize::MAX, usize::MAX);
        }
    }

    /// A number of these.
    pub(super) fn some(&mut self, numbers: RangeInclusive<usize>) -> usize {
        numbers.start() + self.random.below(numbers.end() + 1 - numbers.start())
    }

    /// So many new sections.
    pub(super) fn sections(&mut self, count: RangeInclusive<usize>) {
        for _ in 0..self.some(count) {
            let held = self.book().sections().iter().map(|s| s.code).collect();
            let section = Event::Section {
                settlement_code: self.random.from_to(0, 3) as u8,
                seller: self.random.percent(80),
                code: new_code(self.random, 0, &held),
                participant: self.participants.next(self.random),
            };
            self.add(section);
        }
    }

    /// So many trades in a row, so many of a hundred with fields in and out of
    /// their limits.
    pub(super) fn trades(&mut self, count: RangeInclusive<usize>, wild: usize) {
        for _ in 0..self.some(count) {
            match self.random.percent(wild) {
                true => self.wild(wild_trade),
                false => self.trade(),
            }
        }
    }

    fn wild(&mut self, of: fn(&mut Random, &Book) -> Event) {
        let event = of(self.random, &self.replay.book);
        self.add(event);
    }

    /// A trade that the positions can take, where two sections are held.
    pub(super) fn trade(&mut self) {
        let held = self.book().sections_held.max(2);
        let buyer = self.random.below(held);
        let seller = (buyer + 1 + self.random.below(held - 1)) % held;
        let (mut buyer, mut seller) = (buyer as u8, seller as u8);
        if lots_that_fit(self.book(), buyer, seller) == 0 {
            (buyer, seller) = (seller, buyer);
        }
        let most = self.random.pick(&[1, 30, 10_000]);
        let fits = lots_that_fit(self.book(), buyer, seller).max(1);
        let lots = self.random.from_to(1, most).min(fits);
        let price = self.prices.trade(self.random);
        self.add(trade(buyer, seller, price, lots));
    }

    /// Section 0 buys as many lots of section 1 as one trade may have.
    pub(super) fn lean(&mut self) {
        let price = self.prices.trade(self.random);
        self.add(trade(0, 1, price, 10_000));
    }

    /// Section 1 buys some of them back.
    pub(super) fn lean_back(&mut self) {
        let lots = self.random.pick(&[1, 9_999, 10_000]);
        let price = self.prices.trade(self.random);
        self.add(trade(1, 0, price, lots));
    }

    pub(super) fn session(&mut self) {
        let price = self.prices.session(self.random);
        self.add(session(price));
    }

    pub(super) fn refused_session(&mut self) {
        let price = self.random.pick(&[0, 10_000_001, u32::MAX]);
        self.add(session(price));
    }

    /// A condition of a section that may be held.
    pub(super) fn condition(&mut self) {
        let section = self.random.below(self.replay.book.sections_held + 1);
        let met = self.random.percent(70);
        self.add(condition(section as u8, met));
    }

    /// A notice of a section that may be held.
    pub(super) fn notice(&mut self) {
        let section = self.random.below(self.replay.book.sections_held + 1);
        let elevator = self.random.below(33);
        let lots = self.random.from_to(1, 20);
        self.add(notice(section as u8, elevator as u8, lots));
    }

    /// A notice at every elevator for each of the first sections.
    pub(super) fn notices(&mut self, sections: usize) {
        for place in 0..32 * sections {
            self.add(notice((place / 32) as u8, (place % 32) as u8, 1));
        }
    }

    /// An event that does not read, refused otherwise or not.
    pub(super) fn unreadable(&mut self) {
        let event = wild_event(self.random, &self.replay.book);
        let raw = malformed(self.random, &event);
        self.add_raw(raw);
    }

    /// A call refused with that number, where one is found.
    pub(super) fn refused(&mut self, number: u8) {
        let wild = match number {
            10..=15 => wild_trade,
            18..=21 => wild_notice,
            _ => wild_event,
        };
        let event = faulty(self.random, &self.replay.book, number, wild);
        self.add(event);
    }

    /// Any call, accepted or refused, or an event that does not read.
    pub(super) fn any(&mut self) {
        match self.random.below(20) {
            0..7 => self.wild(wild_event),
            7..12 => self.trade(),
            12 | 13 => self.unreadable(),
            14 => self.session(),
            15 => self.sections(1..=1),
            16 | 17 => self.condition(),
            18 => self.notice(),
            _ => self.add(Event::Expiry),
        }
    }

    /// Sessions until a day session is the last call but conditions; the expiry.
    pub(super) fn finish(&mut self) {
        self.session();
        if self.book().last_session == SessionKind::Evening {
            self.session();
        }
        for section in 0..self.book().sections_held {
            self.add(condition(section as u8, true));
        }
        self.add(Event::Expiry);
    }
}
