//! Markets: planned events that end with an expiry.

use super::Contract;
use super::contracts::Prices;
use super::participants::Participants;
use crate::reading::book::{ELEVATORS, SETTLEMENT_CODES, SectionCode};
use crate::reading::file::event::Event;
use crate::trial::random::Random;
use std::collections::BTreeSet;

/// How large a market is and how much goes wrong in it.
#[derive(Clone, Debug, Default)]
pub(super) struct Shape {
    pub(super) sections: usize,
    pub(super) settlement_codes: usize,
    /// Most notices of a short section.
    pub(super) notices: usize,
    /// Every short section files as many as it may.
    pub(super) all_notices: bool,
    pub(super) elevators: usize,
    /// So many of a hundred sections fail.
    pub(super) failing: usize,
    /// So many of a hundred trades have a session before them.
    pub(super) sessions: usize,
    /// Trades made and undone.
    pub(super) round_trips: usize,
    /// Round trips buy at the highest price and sell at the lowest.
    pub(super) ruinous: bool,
    /// The number of events to reach, or 0 for as many as come.
    pub(super) events: usize,
}

/// Lots that one section is to buy from another.
#[derive(Clone, Copy, Debug)]
pub(super) struct Flow {
    pub(super) buyer: usize,
    pub(super) seller: usize,
    pub(super) lots: u32,
}

/// How a section stands at expiry.
#[derive(Clone, Copy, Debug)]
struct Fate {
    met: bool,
    seller: bool,
    /// What the notices of a short section are off by.
    off: i64,
}

/// The events of a market that ends with an expiry.
pub(super) fn market(
    random: &mut Random,
    contract: Contract,
    shape: &Shape,
    flows: &[Flow],
) -> Vec<Event> {
    let positions = positions(shape.sections, flows);
    let fates: Vec<Fate> = positions.iter().map(|&p| fate(random, shape, p)).collect();
    let sections = sections(random, shape, &fates);
    let prices = Prices::new(random, contract.r);
    let trades = trades(random, &prices, shape, flows);
    let dealt = with_sessions(random, &prices, shape, trades);
    let notices = notices(random, shape, &positions, &fates);
    let mut conditions = conditions(random, &fates);
    let so_far = sections.len() + dealt.len() + notices.len() + conditions.len() + 1;
    for _ in so_far..shape.events.max(so_far) {
        let section = random.below(shape.sections) as u8;
        conditions.insert(
            0,
            Event::Condition {
                section,
                met: false,
            },
        );
    }
    let body = merge(random, vec![dealt, notices, conditions]);
    let mut events = with_sections(random, &sections, body);
    events.push(Event::Expiry);
    events
}

/// The positions that flows come to.
fn positions(sections: usize, flows: &[Flow]) -> Vec<i64> {
    let mut positions = vec![0; sections];
    for flow in flows {
        positions[flow.buyer] += i64::from(flow.lots);
        positions[flow.seller] -= i64::from(flow.lots);
    }
    positions
}

/// Flows between two sides, a few against the grain.
pub(super) fn flows(random: &mut Random, sections: usize, count: usize, most: u32) -> Vec<Flow> {
    let share = random.from_to(25, 75) as usize;
    let buys: Vec<bool> = (0..sections).map(|_| random.percent(share)).collect();
    let mut flows = Vec::new();
    while flows.len() < count {
        let (buyer, seller) = (random.below(sections), random.below(sections));
        let with_the_grain = buys[buyer] && !buys[seller];
        if buyer != seller && (with_the_grain || random.percent(10)) {
            let lots = random.from_to(1, most);
            flows.push(Flow {
                buyer,
                seller,
                lots,
            });
        }
    }
    flows
}

/// How a section of that position is to stand.
fn fate(random: &mut Random, shape: &Shape, position: i64) -> Fate {
    let mut fate = Fate {
        met: true,
        seller: position < 0 || random.percent(40),
        off: 0,
    };
    if random.percent(shape.failing) {
        match random.below(6) {
            0 if position < 0 => fate.seller = false,
            1 if position < 0 => fate.off = 1,
            2 if position < 0 => fate.off = -1,
            3 if position < 0 => fate.off = position,
            4 if position < 0 => (fate.met, fate.seller, fate.off) = (false, false, 1),
            _ => fate.met = false,
        }
    }
    fate
}

/// The section events, with codes unlike each other.
fn sections(random: &mut Random, shape: &Shape, fates: &[Fate]) -> Vec<Event> {
    let mut numbers: Vec<u8> = (0..SETTLEMENT_CODES as u8).collect();
    random.shuffle(&mut numbers);
    let style = random.below(3);
    let mut participants = Participants::new(random);
    let mut held = BTreeSet::new();
    let mut sections = Vec::new();
    for fate in fates {
        let code = new_code(random, style, &held);
        held.insert(code);
        sections.push(Event::Section {
            settlement_code: random.pick(&numbers[..shape.settlement_codes]),
            seller: fate.seller,
            code,
            participant: participants.next(random),
        });
    }
    sections
}

const CODE_BYTES: &[u8; 36] = b"0123456789ABCDEFGHIJKLMNOPQRSTUVWXYZ";

/// A section code not held: all bytes free, or only the last two, or first two.
pub(super) fn new_code(
    random: &mut Random,
    style: usize,
    held: &BTreeSet<SectionCode>,
) -> SectionCode {
    loop {
        let mut code = *b"A000001";
        let free = match style {
            0 => 0..7,
            1 => 5..7,
            _ => 0..2,
        };
        code[free].fill_with(|| random.pick(CODE_BYTES));
        if !held.contains(&SectionCode(code)) {
            return SectionCode(code);
        }
    }
}

/// The trades of the flows and the round trips, in a random order.
fn trades(random: &mut Random, prices: &Prices, shape: &Shape, flows: &[Flow]) -> Vec<Event> {
    let mut bundles = Vec::new();
    for flow in flows {
        let mut open = flow.lots;
        while open > 0 {
            let lots = open.min(10_000);
            bundles.push(vec![trade(random, prices, flow.buyer, flow.seller, lots)]);
            open -= lots;
        }
    }
    random.shuffle(&mut bundles);
    for _ in 0..shape.round_trips {
        let flow = random.pick(flows);
        let any = random.from_to(1, 10_000);
        let lots = random.pick(&[1, any, 10_000]);
        let lots = if shape.ruinous { 10_000 } else { lots };
        let mut undone = trade(random, prices, flow.seller, flow.buyer, lots);
        let mut made = trade(random, prices, flow.buyer, flow.seller, lots);
        if shape.ruinous {
            undone = at(undone, prices.r);
            made = at(made, 10_000_000 / prices.r * prices.r);
        }
        let place = random.below(bundles.len() + 1);
        bundles.insert(place, vec![undone, made]);
    }
    bundles.into_iter().flatten().collect()
}

fn trade(random: &mut Random, prices: &Prices, buyer: usize, seller: usize, lots: u32) -> Event {
    Event::Trade {
        buyer: buyer as u8,
        seller: seller as u8,
        price: prices.trade(random),
        lots,
    }
}

/// The trade at another price.
fn at(trade: Event, price: u32) -> Event {
    match trade {
        Event::Trade {
            buyer,
            seller,
            lots,
            ..
        } => Event::Trade {
            buyer,
            seller,
            price,
            lots,
        },
        other => other,
    }
}

/// The trades with sessions between them, a day session last.
fn with_sessions(
    random: &mut Random,
    prices: &Prices,
    shape: &Shape,
    trades: Vec<Event>,
) -> Vec<Event> {
    let mut dealt = Vec::new();
    let (mut sessions, mut since) = (0, 0);
    for trade in trades {
        if since == 2_000 || random.percent(shape.sessions) {
            dealt.push(Event::Session {
                price: prices.session(random),
            });
            sessions += 1;
            since = 0;
        }
        dealt.push(trade);
        since += 1;
    }
    for _ in 0..1 + sessions % 2 {
        dealt.push(Event::Session {
            price: prices.session(random),
        });
    }
    dealt
}

/// The notices of all sections, in a random filing order.
fn notices(random: &mut Random, shape: &Shape, positions: &[i64], fates: &[Fate]) -> Vec<Event> {
    let mut elevators: Vec<u8> = (0..ELEVATORS as u8).collect();
    random.shuffle(&mut elevators);
    let mut filed = Vec::new();
    for (section, (&position, fate)) in positions.iter().zip(fates).enumerate() {
        let lots = match position {
            ..0 => -position + fate.off,
            _ if random.percent(15) => i64::from(random.from_to(1, 9)),
            _ => 0,
        };
        let most = shape.notices.min(shape.elevators).min(lots as usize);
        let count = match shape.all_notices {
            true => most,
            false => random.below(most + 1).max(most.min(1)),
        };
        let mut open = elevators[..shape.elevators].to_vec();
        random.shuffle(&mut open);
        for (elevator, lots) in open.into_iter().zip(parts(random, lots, count)) {
            filed.push(Event::Notice {
                section: section as u8,
                elevator,
                lots,
            });
        }
    }
    filed.truncate(256);
    random.shuffle(&mut filed);
    filed
}

/// Splits lots into so many parts above 0, all alike where it can or at random.
pub(super) fn parts(random: &mut Random, lots: i64, count: usize) -> Vec<u32> {
    let alike = random.percent(50);
    let mut open = lots as u32;
    let mut parts = Vec::new();
    for left in (1..=count as u32).rev() {
        let even = open.div_ceil(left);
        let most = open - (left - 1);
        let part = match (left, alike) {
            (1, _) => open,
            (_, true) => even,
            (_, false) => random.from_to(1, most.min(2 * even)),
        };
        parts.push(part);
        open -= part;
    }
    parts
}

/// The conditions: met at the end where the fate says so.
fn conditions(random: &mut Random, fates: &[Fate]) -> Vec<Event> {
    let mut conditions = Vec::new();
    for (section, fate) in fates.iter().enumerate() {
        let marks: &[bool] = match (fate.met, random.percent(10)) {
            (true, false) => &[true],
            (true, true) => &[true, false, true],
            (false, false) => &[],
            (false, true) => &[true, false],
        };
        let section = section as u8;
        conditions.extend(marks.iter().map(|&met| Event::Condition { section, met }));
    }
    conditions
}

/// The queues in one, each in its own order.
fn merge(random: &mut Random, queues: Vec<Vec<Event>>) -> Vec<Event> {
    let mut turns: Vec<usize> = queues
        .iter()
        .enumerate()
        .flat_map(|(queue, events)| vec![queue; events.len()])
        .collect();
    random.shuffle(&mut turns);
    let mut queues: Vec<_> = queues.into_iter().map(Vec::into_iter).collect();
    turns
        .into_iter()
        .filter_map(|queue| queues[queue].next())
        .collect()
}

/// The events with every section opened before it is named.
fn with_sections(random: &mut Random, sections: &[Event], body: Vec<Event>) -> Vec<Event> {
    let mut events = Vec::new();
    let mut held = 0;
    for event in body {
        let named = names(&event)
            .into_iter()
            .max()
            .map_or(0, |section| section + 1);
        while held < sections.len() && (held < named || random.percent(20)) {
            events.push(sections[held]);
            held += 1;
        }
        events.push(event);
    }
    events.extend(&sections[held..]);
    events
}

/// The sections an event names.
fn names(event: &Event) -> Vec<usize> {
    match *event {
        Event::Trade { buyer, seller, .. } => vec![usize::from(buyer), usize::from(seller)],
        Event::Condition { section, .. } | Event::Notice { section, .. } => {
            vec![usize::from(section)]
        }
        Event::Section { .. } | Event::Session { .. } | Event::Expiry => vec![],
    }
}
