//! Books at the limits.

use super::contracts::contract;
use super::faults::{faulty, wild_trade};
use super::markets::{Flow, Shape, flows, market};
use super::small::heavy_market;
use super::{Contract, Draft};
use crate::reading::file::EVENTS;
use crate::reading::file::event::{self, Event};
use crate::trial::random::Random;

/// A book at one limit or several; ten in a row have every sort.
pub(super) fn limits(random: &mut Random, turn: u64) -> Draft {
    let contract = contract(random, 80);
    match turn % 10 {
        0 | 3 | 6 | 8 => wide_book(random, contract),
        1 => busy_book(random, contract),
        2 => refused_at_2000(random, contract, &[14]),
        5 => refused_at_2000(random, contract, &[15]),
        7 => refused_at_2000(random, contract, &[10, 11, 12, 13]),
        _ => {
            let round_trips = random.pick(&[800, 1_500]);
            Draft::new(contract, &heavy_market(random, contract, round_trips))
        }
    }
}

/// 128 sections, 256 notices and, half the time, 3,800 events or one more.
fn wide_book(random: &mut Random, contract: Contract) -> Draft {
    let sellers = random.pick(&[8, 8, 16, 32, 64]);
    let all = random.percent(50);
    let shape = Shape {
        sections: 128,
        settlement_codes: random.pick(&[1, 2, 8, 40, 64]),
        notices: 256 / sellers,
        all_notices: true,
        elevators: 32,
        failing: random.pick(&[0, 0, 3, 10]),
        sessions: random.pick(&[0, 1, 5]),
        round_trips: if all { random.below(1_200) } else { 0 },
        events: if all {
            random.pick(&[3_800, 3_800, 3_800, 3_801])
        } else {
            0
        },
        ..Shape::default()
    };
    let most = random.pick(&[5, 100, 2_000]);
    let mut flows = Vec::new();
    for buyer in sellers..128 {
        let seller = random.below(sellers);
        let lots = random.from_to(1, most);
        flows.push(Flow {
            buyer,
            seller,
            lots,
        });
    }
    for seller in 0..sellers {
        let buyer = sellers + random.below(128 - sellers);
        let lots = 32 + random.from_to(1, most);
        flows.push(Flow {
            buyer,
            seller,
            lots,
        });
    }
    let mut events = market(random, contract, &shape, &flows);
    if events.len() > EVENTS + 1 {
        events.drain(EVENTS - 1..events.len() - 1);
    }
    Draft::new(contract, &events)
}

/// 2,000 trades since a session or since the opening.
fn busy_book(random: &mut Random, contract: Contract) -> Draft {
    let sections = 2 + random.below(30);
    let shape = Shape {
        sections,
        settlement_codes: 1 + random.below(8),
        notices: 6,
        elevators: 6,
        failing: random.pick(&[0, 10]),
        round_trips: 1_000 + random.below(500),
        ..Shape::default()
    };
    let count = 2 * sections;
    let flows = flows(random, sections, count, 9);
    Draft::new(contract, &market(random, contract, &shape, &flows))
}

/// 2,000 trades since the opening, positions at their limits, and a trade more
/// that is refused for one reason or several.
fn refused_at_2000(random: &mut Random, contract: Contract, aims: &[u8]) -> Draft {
    let shape = Shape {
        sections: 2 + random.below(3),
        settlement_codes: 2,
        notices: 3,
        elevators: 3,
        round_trips: 950,
        ..Shape::default()
    };
    let flows = [Flow {
        buyer: 0,
        seller: 1,
        lots: 1_000_000,
    }];
    let events = market(random, contract, &shape, &flows);
    let session = |event: &Event| matches!(event, Event::Session { .. });
    let place = events.iter().position(session).expect("a session");
    let mut draft = Draft::new(contract, &events);
    let aim = random.pick(aims);
    let event = faulty(random, &draft.book_at(place), aim, wild_trade);
    draft.events.insert(place, event::encode(&event));
    if random.percent(10) {
        draft.events[place].1[15] = 1;
    }
    if random.percent(20) {
        draft.events.truncate(place + 1);
    }
    draft
}
