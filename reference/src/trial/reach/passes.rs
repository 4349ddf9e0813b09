//! Step 6, as it went and in other ways.

use super::view::{View, mirrored};
use crate::reading::book::{ELEVATORS, SectionCode};
use crate::reading::expiry::passes::{stage_one, stage_two};
use crate::reading::expiry::{Line, Offer, Pair, Pass, settle};
use std::cmp::Reverse;
use std::collections::BTreeSet;

impl View {
    pub(super) fn passes(&self, inside: bool) -> usize {
        let passes = self.settlement.passes.iter();
        passes.filter(|pass| pass.code.is_some() == inside).count()
    }

    pub(super) fn any_pass(&self, like: impl Fn(&Pass) -> bool) -> bool {
        self.settlement.passes.iter().any(like)
    }

    pub(super) fn stage_one_buyers_turned(&self, pass: &Pass) -> Vec<Line> {
        let pairs = stage_one(&self.mirror(), &pass.buyers, &pass.offers);
        stage_two(&self.book, &pairs, &pass.offers)
    }

    pub(super) fn stage_one_elevators_turned(&self, pass: &Pass) -> Vec<Line> {
        let mut pairs = stage_one(&self.book, &pass.buyers, &turned_offers(&pass.offers));
        pairs
            .iter_mut()
            .for_each(|pair| pair.elevator = turned(pair.elevator));
        stage_two(&self.book, &pairs, &pass.offers)
    }

    /// Stage one where a buyer once chosen is served whole before the next.
    pub(super) fn buyers_finished_first(&self, pass: &Pass) -> Vec<Line> {
        let mut buyers = pass.buyers.clone();
        buyers.sort_by_key(|b| (Reverse(b.lots), self.book.sections[b.section].code));
        let mut elevators = [0; ELEVATORS];
        pass.offers
            .iter()
            .for_each(|o| elevators[usize::from(o.elevator)] += o.lots);
        let mut pairs = Vec::new();
        for buyer in &mut buyers {
            while buyer.lots > 0 {
                let elevator = (0..ELEVATORS)
                    .min_by_key(|&e| Reverse(elevators[e]))
                    .expect("elevators");
                let lots = buyer.lots.min(elevators[elevator]);
                buyer.lots -= lots;
                elevators[elevator] -= lots;
                pairs.push(Pair {
                    buyer: buyer.section,
                    elevator: elevator as u8,
                    lots,
                });
            }
        }
        stage_two(&self.book, &pairs, &pass.offers)
    }

    /// Stage one with the elevators ordered by all lots noticed there.
    pub(super) fn whole_notices_differ(&self) -> bool {
        let mut whole = [0; ELEVATORS];
        for notice in self.book.notices() {
            whole[usize::from(notice.elevator)] += i64::from(notice.lots);
        }
        self.any_pass(|pass| {
            let mut drawn = [0; ELEVATORS];
            pass.offers
                .iter()
                .for_each(|o| drawn[usize::from(o.elevator)] += o.lots);
            let open: Vec<usize> = (0..ELEVATORS).filter(|&e| drawn[e] > 0).collect();
            let by =
                |lots: &[i64; ELEVATORS]| open.iter().copied().min_by_key(|&e| Reverse(lots[e]));
            by(&whole) != by(&drawn)
        })
    }

    pub(super) fn stage_two_turned(&self, pass: &Pass, side: i64) -> Vec<Line> {
        let book = mirrored(&self.book, |position| position.signum() == side);
        stage_two(&book, &pass.pairs, &pass.offers)
    }

    pub(super) fn stage_two_elevators_turned(&self, pass: &Pass) -> Vec<Line> {
        let mut pairs = pass.pairs.clone();
        pairs
            .iter_mut()
            .for_each(|pair| pair.elevator = turned(pair.elevator));
        let mut lines = stage_two(&self.book, &pairs, &turned_offers(&pass.offers));
        lines
            .iter_mut()
            .for_each(|line| line.elevator = turned(line.elevator));
        lines
    }

    /// The pairs from most lots to fewest, as they are before stage two.
    fn pairs_by_size(&self, pass: &Pass) -> Vec<Pair> {
        let mut pairs = pass.pairs.clone();
        pairs.sort_by_key(|p| {
            (
                Reverse(p.lots),
                self.book.sections[p.buyer].code,
                p.elevator,
            )
        });
        pairs
    }

    /// Stage two where each pair in turn is served whole.
    fn serve(&self, pairs: Vec<Pair>, offers: &[Offer]) -> Vec<Line> {
        let mut offers = offers.to_vec();
        let mut lines = Vec::new();
        for mut pair in pairs {
            while pair.lots > 0 {
                lines.push(self.line(&mut pair, &mut offers));
            }
        }
        lines
    }

    /// A line of the pair and the notice with most lots at its elevator.
    fn line(&self, pair: &mut Pair, offers: &mut [Offer]) -> Line {
        let at = offers
            .iter_mut()
            .filter(|o| o.elevator == pair.elevator && o.lots > 0);
        let most = at.min_by_key(|o| (Reverse(o.lots), self.book.sections[o.seller].code));
        let offer = most.expect("lots for the pair");
        let lots = pair.lots.min(offer.lots);
        pair.lots -= lots;
        offer.lots -= lots;
        Line {
            buyer: pair.buyer,
            elevator: pair.elevator,
            seller: offer.seller,
            lots,
        }
    }

    pub(super) fn pairs_finished_first(&self, pass: &Pass) -> Vec<Line> {
        self.serve(self.pairs_by_size(pass), &pass.offers)
    }

    pub(super) fn pairs_as_formed(&self, pass: &Pass) -> Vec<Line> {
        self.serve(pass.pairs.clone(), &pass.offers)
    }

    /// Stage two where the pairs take turns, ordered once by their first lots.
    pub(super) fn pairs_in_turn(&self, pass: &Pass) -> Vec<Line> {
        let mut pairs = self.pairs_by_size(pass);
        let mut offers = pass.offers.clone();
        let mut lines = Vec::new();
        while pairs.iter().any(|pair| pair.lots > 0) {
            for pair in pairs.iter_mut().filter(|pair| pair.lots > 0) {
                lines.push(self.line(pair, &mut offers));
            }
        }
        lines
    }

    /// Stage two where a notice's first lots, not those left, choose it.
    pub(super) fn notices_by_first_size(&self, pass: &Pass) -> Vec<Line> {
        let mut offers = pass.offers.clone();
        offers.sort_by_key(|o| (Reverse(o.lots), self.book.sections[o.seller].code));
        let mut pairs = pass.pairs.clone();
        let mut lines = Vec::new();
        loop {
            pairs.retain(|pair| pair.lots > 0);
            pairs.sort_by_key(|p| {
                (
                    Reverse(p.lots),
                    self.book.sections[p.buyer].code,
                    p.elevator,
                )
            });
            let Some(pair) = pairs.first_mut() else {
                return lines;
            };
            let offer = offers
                .iter_mut()
                .find(|o| o.elevator == pair.elevator && o.lots > 0);
            let offer = offer.expect("lots for the pair");
            let lots = pair.lots.min(offer.lots);
            pair.lots -= lots;
            offer.lots -= lots;
            lines.push(Line {
                buyer: pair.buyer,
                elevator: pair.elevator,
                seller: offer.seller,
                lots,
            });
        }
    }

    pub(super) fn numbers_for_codes_differ(&self) -> bool {
        let mut numbered = self.book.clone();
        for (i, section) in numbered.sections.iter_mut().enumerate() {
            section.code = SectionCode([i as u8; 7]);
        }
        let other = settle(&numbered);
        !other.lines().eq(self.settlement.lines()) || other.left != self.settlement.left
    }

    pub(super) fn met_twice(&self) -> bool {
        let mut seen = BTreeSet::new();
        let mut pairs = self.settlement.passes.iter().flat_map(|pass| &pass.pairs);
        pairs.any(|pair| !seen.insert((pair.buyer, pair.elevator)))
    }

    pub(super) fn lines_at_bound(&self) -> bool {
        let long = self
            .settlement
            .left
            .iter()
            .filter(|&&lots| lots > 0)
            .count();
        let drawn = self
            .settlement
            .drawn
            .iter()
            .filter(|d| d.inside + d.outside > 0)
            .count();
        long > 0 && self.settlement.lines().count() == long + drawn - 1
    }
}

/// The elevator as far from the last as this one is from the first.
fn turned(elevator: u8) -> u8 {
    ELEVATORS as u8 - 1 - elevator
}

fn turned_offers(offers: &[Offer]) -> Vec<Offer> {
    let turn = |offer: &Offer| Offer {
        elevator: turned(offer.elevator),
        ..*offer
    };
    offers.iter().map(turn).collect()
}
