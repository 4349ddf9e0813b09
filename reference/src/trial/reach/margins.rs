//! What the margins of a file show.

use super::view::View;
use crate::reading::file::event::Event;
use crate::reading::value::factor;

impl View {
    pub(super) fn sessions(&self) -> usize {
        let session = |event: &&Event| matches!(event, Event::Session { .. });
        self.events.iter().filter(session).count()
    }

    pub(super) fn section_after_session(&self) -> bool {
        let session = |event: &Event| matches!(event, Event::Session { .. });
        let section = |event: &Event| matches!(event, Event::Section { .. });
        let mut after = self.events.iter().skip_while(|event| !session(event));
        after.any(section)
    }

    /// The trap: each lot paid the rounded value of its price's change.
    pub(super) fn margins_by_price_change(&self) -> Vec<i64> {
        let k = i128::from(factor(self.book.w, self.book.r));
        let change = |from: u32, to: u32| {
            let steps = (i128::from(to) - i128::from(from)) * k;
            i64::try_from((2 * steps + 100_000).div_euclid(200_000)).expect("kopecks")
        };
        let mut sums = vec![0; self.book.sections_held];
        let mut carried = vec![0; sums.len()];
        let mut trades = Vec::new();
        let mut last = 0;
        for event in &self.events {
            match *event {
                Event::Trade {
                    buyer,
                    seller,
                    price,
                    lots,
                } => trades.push((buyer, seller, price, i64::from(lots))),
                Event::Session { price } => {
                    sums.iter_mut()
                        .zip(&carried)
                        .for_each(|(sum, lots)| *sum += lots * change(last, price));
                    for (buyer, seller, from, lots) in trades.drain(..) {
                        for (section, lots) in [(buyer, lots), (seller, -lots)] {
                            sums[usize::from(section)] += lots * change(from, price);
                            carried[usize::from(section)] += lots;
                        }
                    }
                    last = price;
                }
                _ => {}
            }
        }
        sums
    }
}
