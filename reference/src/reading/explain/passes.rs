//! Step 6: the pairs and the lines of every pass, as they are formed (000, 2.5),
//! and the lines taken out (02, a; 001, 3.4).

use super::Page;
use crate::reading::book::{Book, ELEVATORS, Notice, SectionCode};
use crate::reading::expiry::{Line, Pair, Pass, Settlement};

/// The pairs and lines told so far, over all passes.
#[derive(Default)]
struct Told {
    pairs: usize,
    lines: usize,
}

/// Step 6: inside passes by code number, then the outside pass.
pub(super) fn step_six(page: &mut Page, book: &Book, settlement: &Settlement) {
    page.rows(
        "
Step 6. Pairs and lines, inside by code number, then outside (000, 2.5; 01, Expiry, step 6)
Buyers have their lots of step 4, elevators the sums of what step 5 draws at them. Most lots first.
Ties (000 is silent, ours): lower buyer section code, lower elevator, lower seller section code.
A tie row stands above the pair or line that it decides. Codes with nothing inside have no pass.",
    );
    let mut told = Told::default();
    for pass in &settlement.passes {
        page.row(match pass.code {
            Some(code) => format!("Inside pass of code {code}"),
            None => "Outside pass".to_string(),
        });
        told.pass(page, book, pass);
    }
    if settlement.passes.iter().all(|pass| pass.code.is_some()) {
        page.row("Outside pass: nothing is left to form");
    }
    let kept = settlement.register.len();
    page.row(format!(
        "pairs formed: {}; lines formed: {}; lines kept: {kept}",
        told.pairs, told.lines
    ));
}

fn code(book: &Book, section: usize) -> SectionCode {
    book.sections[section].code
}

/// How many of the lots are as many as these.
fn as_many(all: impl Iterator<Item = i64>, lots: i64) -> usize {
    all.filter(|&other| other == lots).count()
}

impl Told {
    fn pass(&mut self, page: &mut Page, book: &Book, pass: &Pass) {
        let mut buyers = vec![0; book.sections_held];
        for buyer in &pass.buyers {
            buyers[buyer.section] = buyer.lots;
        }
        let mut elevators = [0; ELEVATORS];
        for offer in &pass.offers {
            elevators[usize::from(offer.elevator)] += offer.lots;
        }
        for (i, lots) in buyers.iter().enumerate().filter(|(_, lots)| **lots > 0) {
            page.row(format!("  buyer {} has {lots} lots", code(book, i)));
        }
        for (i, lots) in elevators.iter().enumerate().filter(|(_, lots)| **lots > 0) {
            page.row(format!("  elevator {i} has {lots} lots"));
        }
        page.row("  stage one: the fullest buyer and the fullest elevator form a pair");
        for pair in &pass.pairs {
            self.pair(page, book, pair, &mut buyers, &mut elevators);
        }
        page.row(
            "  stage two: the fullest pair and the fullest notice at its elevator form a line",
        );
        let (mut pairs, mut notices) = (pass.pairs.clone(), pass.offers.clone());
        for line in &pass.lines {
            pair_tie(page, book, line, &pairs);
            let of_line =
                |pair: &&mut Pair| (pair.buyer, pair.elevator) == (line.buyer, line.elevator);
            let pair = pairs.iter_mut().find(of_line).expect("the line's pair");
            let at_elevator = notices.iter_mut().filter(|n| n.elevator == line.elevator);
            let mut at_elevator: Vec<_> = at_elevator.map(|n| (n.seller, &mut n.lots)).collect();
            self.line(page, book, line, &mut pair.lots, &mut at_elevator);
        }
    }

    /// Stage one: a pair, with the lots of all buyers and elevators before it.
    fn pair(
        &mut self,
        page: &mut Page,
        book: &Book,
        pair: &Pair,
        buyers: &mut [i64],
        elevators: &mut [i64],
    ) {
        let (buyer, elevator, amount) = (code(book, pair.buyer), pair.elevator, pair.lots);
        let (bought, offered) = (buyers[pair.buyer], elevators[usize::from(elevator)]);
        let tied = as_many(buyers.iter().copied(), bought);
        if tied > 1 {
            page.row(format!(
                "    tie: {tied} buyers have {bought} lots; the lowest section code, {buyer}, is taken"
            ));
        }
        let tied = as_many(elevators.iter().copied(), offered);
        if tied > 1 {
            page.row(format!(
                "    tie: {tied} elevators have {offered} lots; the lowest number, {elevator}, is taken"
            ));
        }
        self.pairs += 1;
        let (number, left) = (self.pairs, [bought - amount, offered - amount]);
        page.row(format!(
            "  pair {number}: {buyer} with {bought} and elevator {elevator} with {offered}: \
             {amount} lots; left {} and {}",
            left[0], left[1]
        ));
        buyers[pair.buyer] = left[0];
        elevators[usize::from(elevator)] = left[1];
    }

    /// Stage two: a line, with the lots left of its pair and of all notices at its
    /// elevator.
    fn line(
        &mut self,
        page: &mut Page,
        book: &Book,
        line: &Line,
        pair: &mut i64,
        notices: &mut [(usize, &mut i64)],
    ) {
        let [buyer, seller] = [line.buyer, line.seller].map(|i| code(book, i));
        let (elevator, amount) = (line.elevator, line.lots);
        let own = notices.iter().position(|(own, _)| *own == line.seller);
        let own = own.expect("the line's notice");
        let (paired, offered) = (*pair, *notices[own].1);
        let tied = as_many(notices.iter().map(|(_, lots)| **lots), offered);
        if tied > 1 {
            page.row(format!(
                "    tie: {tied} notices at elevator {elevator} have {offered} lots; \
                 the lowest seller section code, {seller}, is taken"
            ));
        }
        self.lines += 1;
        let (number, left) = (self.lines, [paired - amount, offered - amount]);
        let filed = |n: &Notice| (usize::from(n.section), n.elevator) == (line.seller, elevator);
        let notice = book.notices().iter().position(filed);
        let notice = notice.expect("the line's notice");
        page.row(format!(
            "  line {number}: {buyer} at elevator {elevator} with {paired}, \
             notice {notice} of {seller} with {offered}: {amount} lots; left {} and {}",
            left[0], left[1]
        ));
        (*pair, *notices[own].1) = (left[0], left[1]);
        taken_out(page, book, line);
    }
}

/// Where several pairs have as many lots left as the one of this line.
fn pair_tie(page: &mut Page, book: &Book, line: &Line, pairs: &[Pair]) {
    let (buyer, elevator) = (code(book, line.buyer), line.elevator);
    let of_buyer = || pairs.iter().filter(|pair| pair.buyer == line.buyer);
    let taken = of_buyer().find(|pair| pair.elevator == elevator);
    let lots = taken.expect("the line's pair").lots;
    let tied = as_many(pairs.iter().map(|pair| pair.lots), lots);
    let own = as_many(of_buyer().map(|pair| pair.lots), lots);
    if tied > 1 && own == tied {
        page.row(format!(
            "    tie: {tied} pairs of {buyer} have {lots} lots; \
             the lowest elevator, {elevator}, is taken"
        ));
    } else if tied > 1 {
        page.row(format!(
            "    tie: {tied} pairs have {lots} lots; the lowest buyer section code, {buyer}, is taken"
        ));
        if own > 1 {
            page.row(format!(
                "    tie: {own} of them are of {buyer}; the lowest elevator, {elevator}, is taken"
            ));
        }
    }
}

/// "A line whose buyer and seller share a participant shall be formed as before
/// and then taken out" (02, a).
fn taken_out(page: &mut Page, book: &Book, line: &Line) {
    let [buyer, seller] = [line.buyer, line.seller].map(|i| &book.sections[i]);
    if buyer.participant == seller.participant {
        let (participant, lots) = (buyer.participant, line.lots);
        page.row(format!(
            "    taken out (02, a; 001, 3.4): {} and {} are both participant {participant}; \
             {lots} lots lapse for each",
            buyer.code, seller.code
        ));
    }
}
