//! Steps 1 to 3, as they went and in other ways.

use super::view::View;
use crate::reading::book::{Book, SETTLEMENT_CODES};
use crate::reading::expiry::failing::noticed;
use crate::reading::expiry::nets;

impl View {
    /// Whether a section with lots fails by these: condition, mark, notices.
    pub(super) fn any_failing(&self, by: impl Fn([bool; 3]) -> bool) -> bool {
        self.sections().any(|i| {
            let section = &self.book.sections[i];
            let short = section.position < 0;
            let notices = noticed(&self.book, i) != -section.position;
            section.position != 0
                && by([
                    !section.condition_met,
                    short && !section.seller,
                    short && notices,
                ])
        })
    }

    pub(super) fn failing_offset_in_code(&self) -> bool {
        let failing = |c: usize, sign: i64| {
            self.sections().any(|i| {
                let section = &self.book.sections[i];
                self.settlement.failing[i] && self.code(i) == c && section.position.signum() == sign
            })
        };
        (0..SETTLEMENT_CODES).any(|c| failing(c, 1) && failing(c, -1))
    }

    pub(super) fn sound(&self) -> Vec<i64> {
        let position = |i: usize| {
            if self.settlement.failing[i] {
                0
            } else {
                self.book.sections[i].position
            }
        };
        self.sections().map(position).collect()
    }

    pub(super) fn gifts_within(&self) -> Vec<i64> {
        let left = self.sound().into_iter().zip(&self.settlement.left_within);
        left.map(|(before, after)| (before - after).abs()).collect()
    }

    pub(super) fn gifts_across(&self) -> Vec<i64> {
        let left = self
            .settlement
            .left_within
            .iter()
            .zip(&self.settlement.left);
        left.map(|(before, after)| (before - after).abs()).collect()
    }

    /// The most sections of one code that have some of these lots.
    pub(super) fn givers_of_a_code(&self, lots: &[i64]) -> usize {
        let of = |c: usize| {
            self.sections()
                .filter(|&i| self.code(i) == c && lots[i] != 0)
                .count()
        };
        (0..SETTLEMENT_CODES).map(of).max().unwrap_or(0)
    }

    pub(super) fn gave_a_part(&self, before: &[i64], gifts: &[i64]) -> bool {
        self.sections()
            .any(|i| gifts[i] > 0 && gifts[i] < before[i].abs())
    }

    pub(super) fn ran_out_within(&self) -> bool {
        let codes = self.settlement.failed.iter().zip(&self.settlement.unclosed);
        codes
            .into_iter()
            .any(|(failed, unclosed)| *unclosed != 0 && failed != unclosed)
    }

    pub(super) fn leftovers_offset(&self) -> bool {
        let unclosed = &self.settlement.unclosed;
        unclosed.iter().any(|&d| d > 0) && unclosed.iter().any(|&d| d < 0)
    }

    pub(super) fn leftovers_cancelled(&self) -> bool {
        self.leftovers_offset() && self.settlement.unclosed.iter().sum::<i64>() == 0
    }

    pub(super) fn side_gave(&self, sign: i64) -> bool {
        let gifts = self.gifts_across();
        self.sections()
            .any(|i| gifts[i] > 0 && self.book.sections[i].position.signum() == sign)
    }

    pub(super) fn codes_giving(&self) -> Vec<usize> {
        let gifts = self.gifts_across();
        let gave = |c: usize| self.sections().any(|i| self.code(i) == c && gifts[i] > 0);
        (0..SETTLEMENT_CODES).filter(|&c| gave(c)).collect()
    }

    pub(super) fn gave_beside_own_leftover(&self) -> bool {
        self.codes_giving()
            .iter()
            .any(|&c| self.settlement.unclosed[c] != 0)
    }

    pub(super) fn size_within(&self, section: usize) -> i64 {
        self.settlement.left_within[section].abs()
    }

    /// Step 2 by another order of sizes, or with the codes of another book.
    pub(super) fn within<K: Ord>(&self, book: &Book, order: impl Fn(i64) -> K) -> Vec<i64> {
        let mut left = self.sound();
        for c in 0..SETTLEMENT_CODES {
            let mut open = self.settlement.failed[c];
            let opposite = |i: &usize| self.code(*i) == c && left[*i] * open < 0;
            let mut givers: Vec<usize> = self.sections().filter(opposite).collect();
            givers.sort_by_key(|&i| (order(left[i].abs()), book.sections[i].code));
            for i in givers {
                let gift = open.signum() * left[i].abs().min(open.abs());
                left[i] += gift;
                open -= gift;
            }
        }
        left
    }

    /// Step 3 by another order, with or without the bound of a code's net, or
    /// with the codes of another book.
    pub(super) fn across<K: Ord>(
        &self,
        book: &Book,
        bound: bool,
        order: impl Fn(usize) -> K,
    ) -> Vec<i64> {
        let mut left = self.settlement.left_within.clone();
        let mut open: i64 = self.settlement.unclosed.iter().sum();
        let mut nets = nets(&self.book, &left);
        let opposite = |i: &usize| left[*i] * open < 0 && nets[self.code(*i)] * open < 0;
        let mut givers: Vec<usize> = self.sections().filter(opposite).collect();
        givers.sort_by_key(|&i| (order(i), book.sections[i].code));
        for i in givers {
            let most = if bound {
                nets[self.code(i)].abs()
            } else {
                i64::MAX
            };
            let gift = open.signum() * left[i].abs().min(open.abs()).min(most);
            left[i] += gift;
            nets[self.code(i)] += gift;
            open -= gift;
        }
        left
    }
}
