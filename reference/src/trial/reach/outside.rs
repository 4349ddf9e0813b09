//! Steps 4 and 5, as they went and in other ways.

use super::view::View;
use crate::reading::book::{Book, Notice, SETTLEMENT_CODES};
use crate::reading::expiry::{Drawn, nets, settle};

impl View {
    /// Step 4 by another order of sizes, or with the codes of another book.
    pub(super) fn outside<K: Ord>(&self, book: &Book, order: impl Fn(i64) -> K) -> Vec<i64> {
        let left = &self.settlement.left;
        let mut outside = vec![0; left.len()];
        for (c, mut net) in nets(&self.book, left).into_iter().enumerate() {
            let along = |i: &usize| self.code(*i) == c && left[*i] * net > 0;
            let mut marked: Vec<usize> = self.sections().filter(along).collect();
            marked.sort_by_key(|&i| (order(left[i].abs()), book.sections[i].code));
            for i in marked {
                outside[i] = net.signum() * left[i].abs().min(net.abs());
                net -= outside[i];
            }
        }
        outside
    }

    /// Inside and outside lots of a code's sections, by size.
    fn parts_of_code(&self, c: usize) -> (i64, i64) {
        let own = || self.sections().filter(|&i| self.code(i) == c);
        let inside = own()
            .map(|i| (self.settlement.left[i] - self.settlement.outside[i]).abs())
            .sum();
        (
            inside,
            own().map(|i| self.settlement.outside[i].abs()).sum(),
        )
    }

    pub(super) fn code_all_inside(&self) -> bool {
        let parts = |c: usize| self.parts_of_code(c);
        (0..SETTLEMENT_CODES).any(|c| parts(c).0 > 0 && parts(c).1 == 0)
    }

    pub(super) fn code_all_outside(&self) -> bool {
        let parts = |c: usize| self.parts_of_code(c);
        (0..SETTLEMENT_CODES).any(|c| parts(c).0 == 0 && parts(c).1 > 0)
    }

    fn is_split(&self, section: usize) -> bool {
        let outside = self.settlement.outside[section];
        outside != 0 && outside != self.settlement.left[section]
    }

    pub(super) fn net_without_split(&self) -> bool {
        let split = |c: usize| {
            self.sections()
                .any(|i| self.code(i) == c && self.is_split(i))
        };
        let both = |c: usize| self.parts_of_code(c).0 > 0 && self.parts_of_code(c).1 > 0;
        (0..SETTLEMENT_CODES).any(|c| both(c) && !split(c))
    }

    pub(super) fn split(&self, sign: i64) -> bool {
        self.sections()
            .any(|i| self.is_split(i) && self.settlement.left[i].signum() == sign)
    }

    /// Whether a notice of a short section that delivers is drawn like that.
    pub(super) fn any_notice(&self, like: impl Fn(&Drawn, i64) -> bool) -> bool {
        let notices = self.book.notices().iter().zip(&self.settlement.drawn);
        notices
            .filter(|(notice, _)| self.settlement.left[usize::from(notice.section)] < 0)
            .any(|(notice, drawn)| like(drawn, i64::from(notice.lots)))
    }

    /// Step 5 with the parts of a short section's lots in another order.
    pub(super) fn drawn<const N: usize>(&self, order: [&str; N]) -> Vec<Drawn> {
        let lots_of = |section: usize, part: &str| match part {
            "inside" => self.settlement.outside[section] - self.settlement.left[section],
            "outside" => -self.settlement.outside[section],
            _ => self.settlement.left[section] - self.book.sections[section].position,
        };
        let mut open: Vec<[i64; N]> = self
            .sections()
            .map(|i| order.map(|part| lots_of(i, part)))
            .collect();
        let mut drawn = Vec::new();
        for notice in self.book.notices() {
            let section = usize::from(notice.section);
            let mut left = i64::from(notice.lots);
            let mut draw = Drawn::default();
            for (part, open) in order.into_iter().zip(&mut open[section]) {
                let lots = match self.settlement.left[section] < 0 {
                    true => left.min(*open),
                    false => 0,
                };
                left -= lots;
                *open -= lots;
                match part {
                    "inside" => draw.inside += lots,
                    "outside" => draw.outside += lots,
                    _ => {}
                }
            }
            drawn.push(draw);
        }
        drawn
    }

    pub(super) fn filing_order_counts(&self) -> bool {
        let mut turned = self.book.clone();
        turned.notices[..self.book.notices_held].reverse();
        let other = settle(&turned);
        !other.lines().eq(self.settlement.lines())
    }

    pub(super) fn ignored_notice(&self, sign: i64) -> bool {
        let section = |n: &Notice| &self.book.sections[usize::from(n.section)];
        let ignored = |n| section(n).condition_met && section(n).position.signum() == sign;
        self.book.notices().iter().any(ignored)
    }
}
