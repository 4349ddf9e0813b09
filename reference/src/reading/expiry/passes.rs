//! Step 6: the passes, each with its pairs and its lines.

use super::{Buyer, Drawn, Line, Offer, Pair, Pass, code, settlement_code};
use crate::reading::book::{Book, ELEVATORS, SETTLEMENT_CODES};
use std::cmp::Reverse;

/// Step 6: "Inside passes run by code number ascending, then one outside pass."
pub(super) fn form_passes(
    book: &Book,
    left: &[i64],
    outside: &[i64],
    drawn: &[Drawn],
) -> Vec<Pass> {
    let mut passes = Vec::new();
    for c in 0..SETTLEMENT_CODES {
        let of_code = |i: &usize| settlement_code(book, *i) == c;
        let sections = (0..left.len()).filter(of_code);
        let buyers = buyers(sections.map(|i| (i, left[i] - outside[i])));
        let mut offers = offers(book, drawn.iter().map(|d| d.inside));
        offers.retain(|offer| of_code(&offer.seller));
        passes.push(form_pass(book, Some(c as u8), buyers, offers));
    }
    let buyers = buyers(outside.iter().copied().enumerate());
    let offers = offers(book, drawn.iter().map(|d| d.outside));
    passes.push(form_pass(book, None, buyers, offers));
    passes.retain(|pass| !pass.buyers.is_empty());
    passes
}

/// The sections with lots above 0 in a pass.
fn buyers(lots: impl Iterator<Item = (usize, i64)>) -> Vec<Buyer> {
    let long = lots.filter(|(_, lots)| *lots > 0);
    long.map(|(section, lots)| Buyer { section, lots })
        .collect()
}

/// The notices with lots in a pass, given each notice's lots in filing order.
fn offers(book: &Book, lots: impl Iterator<Item = i64>) -> Vec<Offer> {
    let drawn = book
        .notices()
        .iter()
        .zip(lots)
        .filter(|(_, lots)| *lots > 0);
    drawn
        .map(|(notice, lots)| Offer {
            seller: usize::from(notice.section),
            elevator: notice.elevator,
            lots,
        })
        .collect()
}

/// The two stages over the buyers and the notices' lots of one pass (2.5).
fn form_pass(book: &Book, code: Option<u8>, buyers: Vec<Buyer>, offers: Vec<Offer>) -> Pass {
    let pairs = stage_one(book, &buyers, &offers);
    let lines = stage_two(book, &pairs, &offers);
    Pass {
        code,
        buyers,
        offers,
        pairs,
        lines,
    }
}

/// "Stage one: the buyer section with most lots and the elevator with most
/// lots form a pair of the smaller amount; repeat with what is left." Ties:
/// "lower buyer section code, lower elevator".
pub fn stage_one(book: &Book, buyers: &[Buyer], offers: &[Offer]) -> Vec<Pair> {
    let mut buyers = buyers.to_vec();
    let mut elevators = elevator_lots(offers);
    let mut pairs = Vec::new();
    loop {
        buyers.retain(|buyer| buyer.lots > 0);
        buyers.sort_by_key(|buyer| (Reverse(buyer.lots), code(book, buyer.section)));
        elevators.retain(|(_, lots)| *lots > 0);
        elevators.sort_by_key(|(elevator, lots)| (Reverse(*lots), *elevator));
        let (Some(buyer), Some((elevator, offered))) = (buyers.first_mut(), elevators.first_mut())
        else {
            return pairs;
        };
        let lots = buyer.lots.min(*offered);
        buyer.lots -= lots;
        *offered -= lots;
        pairs.push(Pair {
            buyer: buyer.section,
            elevator: *elevator,
            lots,
        });
    }
}

/// The lots at each elevator: "the sum of the lots of the notices that name
/// the elevator" (000, 2.5), of those drawn for this pass.
fn elevator_lots(offers: &[Offer]) -> Vec<(u8, i64)> {
    let at = |elevator: u8| {
        offers
            .iter()
            .filter(move |offer| offer.elevator == elevator)
    };
    (0..ELEVATORS as u8)
        .map(|elevator| (elevator, at(elevator).map(|offer| offer.lots).sum()))
        .collect()
}

/// "Stage two: the pair with most lots left, then the seller's notice with
/// most lots left at its elevator, form a line (2.5)." Ties: "lower buyer
/// section code, lower elevator, lower seller section code".
pub fn stage_two(book: &Book, pairs: &[Pair], offers: &[Offer]) -> Vec<Line> {
    let mut pairs = pairs.to_vec();
    let mut offers = offers.to_vec();
    let mut lines = Vec::new();
    loop {
        pairs.retain(|pair| pair.lots > 0);
        pairs.sort_by_key(|pair| (Reverse(pair.lots), code(book, pair.buyer), pair.elevator));
        offers.retain(|offer| offer.lots > 0);
        offers.sort_by_key(|offer| (Reverse(offer.lots), code(book, offer.seller)));
        let Some(pair) = pairs.first_mut() else {
            return lines;
        };
        let offer = offers
            .iter_mut()
            .find(|offer| offer.elevator == pair.elevator);
        let offer = offer.expect("an elevator's pairs and notices have the same lots");
        let lots = pair.lots.min(offer.lots);
        pair.lots -= lots;
        offer.lots -= lots;
        lines.push(Line {
            buyer: pair.buyer,
            elevator: pair.elevator,
            seller: offer.seller,
            lots,
        });
    }
}
