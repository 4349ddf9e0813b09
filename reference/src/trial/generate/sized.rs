//! Files of a size that is asked for, to measure with.

use super::markets::{new_code, parts};
use super::{Contract, Draft};
use crate::reading::book::ELEVATORS;
use crate::reading::file::event::Event;
use crate::trial::hand::{condition, notice, session, trade};
use crate::trial::random::Random;
use std::collections::BTreeSet;

/// A file of so many sections, a multiple of 16, and events. One section of
/// sixteen sells, at all elevators; the others buy. All are sound and of one
/// settlement code, and no lots meet by chance: the register has as many lines as
/// demand 3 lets it have, 375 with 128 sections. None where the sections and
/// what they need are more events than asked for.
pub fn sized(sections: usize, events: usize) -> Option<Vec<u8>> {
    let sellers = sections / 16;
    let mut random = Random::new(SEED);
    let mut body = Vec::new();
    let mut sold = vec![0; sellers];
    for buyer in sellers..sections {
        let lots = random.from_to(1_000, 9_999);
        sold[buyer % sellers] += i64::from(lots);
        body.push(trade(
            buyer as u8,
            (buyer % sellers) as u8,
            price(buyer),
            lots,
        ));
    }
    let mut end = vec![session(1_520_000)];
    end.extend((0..sections).map(|i| condition(i as u8, true)));
    for (seller, &lots) in sold.iter().enumerate() {
        let lots = parts(&mut random, lots, ELEVATORS).into_iter().enumerate();
        end.extend(lots.map(|(elevator, lots)| notice(seller as u8, elevator as u8, lots)));
    }
    let more = events.checked_sub(sections + body.len() + end.len() + 1)?;
    body.extend((0..more / 2).flat_map(|turn| pair(turn, sellers, sections)));
    body.extend((0..more % 2).map(|_| condition(0, true)));
    let mut all = opened(&mut random, sellers, sections);
    all.extend(body);
    all.extend(end);
    all.push(Event::Expiry);
    Some(Draft::new(CONTRACT, &all).bytes())
}

/// A file of so many sections, none or more than one, and events, all accepted:
/// after the sections come trades, each made and undone, and a session after
/// every 1,500 of them. It has no expiry. None where there are fewer events than
/// sections.
pub fn trading(sections: usize, events: usize) -> Option<Vec<u8>> {
    let mut all = opened(&mut Random::new(SEED), 0, sections);
    let more = events.checked_sub(sections)?;
    all.extend((0..more).map(|turn| match turn % 1_501 {
        1_500 => session(price(turn)),
        _ => one_of_two(turn, sections),
    }));
    Some(Draft::new(CONTRACT, &all).bytes())
}

/// A trade of a section with the next, or the one that undoes it.
fn one_of_two(turn: usize, sections: usize) -> Event {
    let buyer = turn / 2 % sections;
    let (buyer, seller) = (buyer as u8, ((buyer + 1) % sections) as u8);
    match turn % 2 {
        0 => trade(buyer, seller, price(turn), 10),
        _ => trade(seller, buyer, price(turn), 10),
    }
}

const CONTRACT: Contract = Contract {
    lot: 25,
    w: 2_500,
    r: 100,
};

/// Chosen so that no lots meet by chance, with 16, 32, 64 or 128 sections.
const SEED: u64 = 30;

/// A price near 1,500,000.
fn price(turn: usize) -> u32 {
    1_500_000 + 100 * (turn % 200) as u32
}

/// A trade and one that undoes it, or, every fiftieth time, a day and an evening
/// session.
fn pair(turn: usize, sellers: usize, sections: usize) -> [Event; 2] {
    if turn % 50 == 49 {
        return [session(price(turn)), session(price(turn + 1))];
    }
    let buyer = sellers + turn % (sections - sellers);
    let (buyer, seller) = (buyer as u8, (buyer % sellers) as u8);
    [
        trade(buyer, seller, price(turn), 10),
        trade(seller, buyer, price(turn + 7), 10),
    ]
}

/// The section events.
fn opened(random: &mut Random, sellers: usize, sections: usize) -> Vec<Event> {
    let mut held = BTreeSet::new();
    let mut opened = Vec::new();
    for number in 0..sections {
        let code = new_code(random, 0, &held);
        held.insert(code);
        opened.push(Event::Section {
            settlement_code: 1,
            seller: number < sellers,
            code,
            participant: number as u32,
        });
    }
    opened
}
