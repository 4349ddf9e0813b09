//! A block of trades in one call (document 02, b).

use crate::reading::book::Book;
use crate::reading::refusal::{Refusal, first};

/// "four parallel lists": at each place of them stands a trade.
#[derive(Clone, Copy, Debug)]
pub struct Trades<'a> {
    pub buyers: &'a [u8],
    pub sellers: &'a [u8],
    pub prices: &'a [u32],
    pub lots: &'a [u32],
}

impl Trades<'_> {
    /// Whether "the five lists differ in length", the fifth being the answers.
    fn differ(&self, answers: usize) -> bool {
        let sections = [self.buyers.len(), self.sellers.len()];
        let numbers = [self.prices.len(), self.lots.len()];
        sections != [answers; 2] || numbers != [answers; 2]
    }
}

impl Book {
    /// Block: "29 when the five lists differ in length, after 1."
    pub fn block_faults(&self, trades: &Trades<'_>, answers: usize) -> Vec<Refusal> {
        self.faults(|| [(trades.differ(answers), Refusal::BlockLists)])
    }

    /// **Block**: "Each trade is offered in turn; the answer is 0 or its
    /// refusal; a refused one does not stop the rest."
    pub fn block(&mut self, trades: Trades<'_>, answers: &mut [u8]) -> Result<(), Refusal> {
        first(self.block_faults(&trades, answers.len()))?;
        for (i, answer) in answers.iter_mut().enumerate() {
            let (buyer, seller) = (trades.buyers[i], trades.sellers[i]);
            let single = self.trade(buyer, seller, trades.prices[i], trades.lots[i]);
            *answer = single.map_or_else(Refusal::number, |()| 0);
        }
        Ok(())
    }
}
