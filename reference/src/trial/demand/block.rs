//! A block of trades in a list of calls (document 02, b).

use super::{Outcome, Step};
use crate::reading::block::Trades;
use crate::reading::book::Book;
use crate::reading::file::event::Event;
use crate::reading::refusal::Refusal;

/// A block: its four lists, and how long the answer list is.
#[derive(Clone, Debug, Default, PartialEq, Eq)]
pub struct Block {
    pub buyers: Vec<u8>,
    pub sellers: Vec<u8>,
    pub prices: Vec<u32>,
    pub lots: Vec<u32>,
    pub answers: usize,
}

/// What a trade can be refused with, where the book is good.
const TRADE: [Refusal; 7] = [
    Refusal::Expired,
    Refusal::UnknownSection,
    Refusal::BuyerIsSeller,
    Refusal::TradePrice,
    Refusal::TradeLots,
    Refusal::PositionLimit,
    Refusal::TradesFull,
];
/// A number that no trade answers.
const UNTOUCHED: u8 = 170;

impl Block {
    /// The block of some trades; other events have no place in it.
    pub fn of(events: &[Event]) -> Block {
        let mut block = Block::default();
        for event in events {
            if let Event::Trade {
                buyer,
                seller,
                price,
                lots,
            } = *event
            {
                block.buyers.push(buyer);
                block.sellers.push(seller);
                block.prices.push(price);
                block.lots.push(lots);
                block.answers += 1;
            }
        }
        block
    }

    /// Whether its five lists have one length.
    pub fn is_even(&self) -> bool {
        let lists = [self.sellers.len(), self.prices.len(), self.lots.len()];
        self.buyers.len() == self.answers && lists == [self.answers; 3]
    }

    fn trade(&self, place: usize) -> Event {
        Event::Trade {
            buyer: self.buyers[place],
            seller: self.sellers[place],
            price: self.prices[place],
            lots: self.lots[place],
        }
    }

    /// Makes the call, on a book that is good, and checks that it is refused 29
    /// where its lists differ and is accepted otherwise. It "counts as its single
    /// trades", a step for each; refused, it leaves all as it was and brings none.
    pub(super) fn make_checked(&self, book: &mut Book) -> Result<Vec<Step>, String> {
        let before = book.clone();
        let mut answers = vec![UNTOUCHED; self.answers];
        let trades = Trades {
            buyers: &self.buyers,
            sellers: &self.sellers,
            prices: &self.prices,
            lots: &self.lots,
        };
        match (book.block(trades, &mut answers), self.is_even()) {
            (Ok(()), true) => (0..self.answers)
                .map(|place| step(self.trade(place), answers[place]))
                .collect(),
            (Err(Refusal::BlockLists), false) => {
                let untouched = answers.iter().all(|&answer| answer == UNTOUCHED);
                let as_it_was = untouched && *book == before;
                let changed = || format!("{self:?} was refused and changed something");
                as_it_was.then(Vec::new).ok_or_else(changed)
            }
            (answer, _) => Err(format!("{self:?} answered {answer:?}")),
        }
    }
}

/// The step of a trade with that answer in its block.
fn step(event: Event, number: u8) -> Result<Step, String> {
    let refusal = TRADE.iter().find(|refusal| refusal.number() == number);
    let answer = match (number, refusal) {
        (0, _) => Ok(Outcome::Done),
        (_, Some(&refusal)) => Err(refusal),
        _ => return Err(format!("{event:?} in a block has the answer {number}")),
    };
    Ok(Step { event, answer })
}
