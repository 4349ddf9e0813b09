//! Demand 3 over generated lists of calls, and that its assertions bite.

mod common;

use common::{all_kept, entry};
use std::collections::BTreeSet;
use wheat_delivery::reading::file::event::Event;
use wheat_delivery::reading::file::{self, Reader, whole};
use wheat_delivery::reading::listing::Lists;
use wheat_delivery::reading::refusal::Refusal;
use wheat_delivery::reading::value::{factor, value};
use wheat_delivery::trial::demand::block::Block;
use wheat_delivery::trial::demand::{
    Call, Ending, Entry, Expiry, History, Lengths, Outcome, Single, run,
};
use wheat_delivery::trial::examples::shared;
use wheat_delivery::trial::generate::lists::{self, singly, with_blocks};
use wheat_delivery::trial::generate::unruly::unruly;
use wheat_delivery::trial::generate::{self, Contract};
use wheat_delivery::trial::hand::{Case, section, trade, worked};

fn ending(contract: Contract, calls: &[Call]) -> Option<Ending> {
    let Contract { lot, w, r } = contract;
    run(lot, w, r, calls).unwrap()
}

/// The history of the list of calls of a seed, where it has one.
fn history(seed: u64) -> Option<History> {
    let (contract, calls) = lists::calls(seed, &generate::file(seed))?;
    let calls = with_blocks(seed, &calls);
    ending(contract, &calls).map(|ending| ending.history)
}

/// The calls of some events, with lists that are never short.
fn full(events: &[Event]) -> Vec<Call> {
    let single = |&event: &Event| Single {
        event,
        lengths: Lengths::FULL,
    };
    singly(&events.iter().map(single).collect::<Vec<_>>())
}

/// The history of the events of a case.
fn history_of(case: &Case) -> History {
    let calls = full(&case.events);
    ending(case.contract, &calls).unwrap().history
}

#[test]
fn demand_3_holds_over_generated_lists_with_refused_calls_among_them() {
    let (mut expiries, mut refused) = (0, BTreeSet::new());
    for seed in 0..1_600 {
        let Some(history) = history(seed) else {
            continue;
        };
        history
            .demand_three()
            .unwrap_or_else(|breach| panic!("seed {seed}: {breach}"));
        expiries += usize::from(history.has_expiry());
        let answers = history
            .steps
            .iter()
            .filter_map(|step| step.answer.as_ref().err());
        refused.extend(answers.map(|refusal| refusal.number()));
    }
    assert!(expiries > 800, "{expiries} lists with an expiry");
    let every: BTreeSet<u8> = (5..=24).collect();
    assert_eq!(refused, every, "every number a call of a list can answer");
}

/// Lists in which an expiry is lent a lapsed list that is short, and no other.
#[test]
fn a_lapsed_list_alone_is_short_in_some_lists() {
    let mut short = 0;
    for seed in 0..1_600 {
        let Some((contract, calls)) = lists::calls(seed, &generate::file(seed)) else {
            continue;
        };
        let Some(Ending { history, book }) = ending(contract, &singly(&calls)) else {
            continue;
        };
        let lapsed_alone = |lengths: &Lengths| {
            let others = lengths.delivered.min(lengths.terminated);
            (lengths.lapsed + 1..=others).contains(&book.sections_held)
        };
        let refused = history.steps.iter().zip(&calls).filter(|(step, call)| {
            step.answer == Err(Refusal::SectionListShort) && lapsed_alone(&call.lengths)
        });
        short += refused.count();
    }
    assert!(short > 10, "{short} lists");
}

#[test]
fn demand_3_holds_wherever_a_list_stops() {
    for seed in 0..400 {
        let Some(history) = history(seed).filter(|history| history.steps.len() < 120) else {
            continue;
        };
        for calls in 0..=history.steps.len() {
            let stopped = history.prefix(calls).demand_three();
            stopped.unwrap_or_else(|breach| panic!("seed {seed}, {calls} calls: {breach}"));
        }
    }
}

#[test]
fn demand_3_holds_over_the_empty_list() {
    let history = run(1, 1, 1, &[]).unwrap().unwrap().history;
    assert_eq!(history.demand_three(), Ok(()));
}

#[test]
fn a_list_with_blocks_ends_as_the_list_with_its_trades_written_out() {
    let (mut longest, mut empty, mut uneven) = (0, 0, 0);
    let files = (0..640).map(|seed| (seed, generate::file(seed)));
    for (seed, file) in files.chain((0..320).map(|seed| (seed, unruly(seed)))) {
        let Some((contract, calls)) = lists::calls(seed, &file) else {
            continue;
        };
        let given = with_blocks(seed, &calls);
        let (by_blocks, singly) = (ending(contract, &given), ending(contract, &singly(&calls)));
        assert!(by_blocks == singly, "seed {seed}");
        let claims = by_blocks.map(|ending| ending.history.demand_three());
        assert_eq!(claims.unwrap_or(Ok(())), Ok(()), "seed {seed}");
        let blocks = given.iter().filter_map(|call| match call {
            Call::Block(block) => Some(block),
            Call::Single(_) => None,
        });
        for block in blocks {
            match block.is_even() {
                true => longest = longest.max(block.answers),
                false => uneven += 1,
            }
            empty += usize::from(*block == Block::default());
        }
    }
    assert!(longest > 3_000, "a block of {longest} trades");
    assert!(
        empty > 400 && uneven > 400,
        "{empty} empty, {uneven} uneven"
    );
}

/// The three trades of the hand case in one block, a refused one among them, and
/// after it a block that is refused.
#[test]
fn a_block_counts_as_its_single_trades_and_a_refused_one_brings_nothing() {
    let mut events = worked().events;
    events.insert(5, trade(0, 0, 1_500_000, 1));
    let mut refused = Block::of(&events[4..8]);
    refused.answers = 3;
    let blocks = [Block::of(&events[4..8]), refused].map(Call::Block);
    let given = [&full(&events[..4]), &blocks[..], &full(&events[8..])].concat();
    let by_blocks = ending(worked().contract, &given);
    assert_eq!(by_blocks, ending(worked().contract, &full(&events)));
    let history = by_blocks.unwrap().history;
    assert_eq!(history.steps[5].answer, Err(Refusal::BuyerIsSeller));
    assert_eq!(history.steps.len(), 16);
    assert_eq!(history.demand_three(), Ok(()));
}

#[test]
fn a_refused_opening_starts_no_list() {
    assert_eq!(run(0, 1, 1, &[]), Ok(None));
}

/// What demand 3 says of a case after a change to its history.
fn breach_of(case: &Case, change: impl Fn(&mut History)) -> String {
    let mut history = history_of(case);
    assert_eq!(history.demand_three(), Ok(()));
    change(&mut history);
    history.demand_three().expect_err("a breach")
}

/// The same of the fifteen events checked by hand.
fn breach(change: impl Fn(&mut History)) -> String {
    breach_of(&worked(), change)
}

/// What the expiry that ends a case handed out.
fn expiry(history: &mut History) -> &mut Expiry {
    match history.steps.last_mut().map(|step| &mut step.answer) {
        Some(Ok(Outcome::Expiry(expiry))) => expiry,
        other => panic!("no expiry: {other:?}"),
    }
}

/// Changes the lines formed and, where all are kept, the register with them.
fn change_lines(history: &mut History, change: impl Fn(&mut Vec<Entry>)) {
    let expiry = expiry(history);
    change(&mut expiry.formed);
    change(&mut expiry.register);
}

fn margins(history: &mut History) -> &mut Vec<i64> {
    match &mut history.steps[7].answer {
        Ok(Outcome::Session { margins }) => margins,
        other => panic!("no session: {other:?}"),
    }
}

#[test]
fn margins_that_do_not_sum_to_zero_break_demand_3() {
    assert!(breach(|h| margins(h)[0] += 1).contains("sum to 1"));
}

#[test]
fn margins_that_sum_to_zero_but_are_not_the_gains_break_demand_3() {
    let told = breach(|h| {
        margins(h)[0] += 1;
        margins(h)[1] -= 1;
    });
    assert!(told.contains("gains"));
    assert!(breach(|h| margins(h).fill(0)).contains("gains"));
}

#[test]
fn lots_neither_delivered_nor_terminated_break_demand_3() {
    assert!(breach(|h| expiry(h).terminated[2] -= 1).contains("section 2"));
    assert!(breach(|h| expiry(h).delivered[0] += 1).contains("section 0"));
}

#[test]
fn a_register_unlike_the_delivered_lots_breaks_demand_3() {
    let all_terminated = breach(|h| {
        let Expiry {
            delivered,
            terminated,
            ..
        } = expiry(h);
        terminated
            .iter_mut()
            .zip(delivered)
            .for_each(|(t, d)| *t += std::mem::take(d));
    });
    assert!(all_terminated.contains("in the register"));
    assert!(breach(|h| expiry(h).register[0].lots += 1).contains("in the register"));
    assert!(breach(|h| expiry(h).register[2].seller = 1).contains("in the register"));
}

#[test]
fn a_line_count_unlike_the_lines_breaks_demand_3() {
    let formed = "counts 4 lines and 3 kept where there are (3, 3)";
    assert!(breach(|h| expiry(h).counts.lines += 1).contains(formed));
    let kept = "counts 3 lines and 2 kept where there are (3, 3)";
    assert!(breach(|h| expiry(h).counts.kept -= 1).contains(kept));
}

#[test]
fn a_notice_drawn_beyond_its_lots_breaks_demand_3() {
    let at = |elevator: u8| breach(|h| change_lines(h, |lines| lines[2].elevator = elevator));
    assert!(at(4).contains("drawn of 2"));
    assert!(at(9).contains("drawn of 0"));
}

#[test]
fn more_lines_than_sections_and_notices_allow_break_demand_3() {
    let told = breach(|h| {
        change_lines(h, |lines| {
            lines[0].lots = 1;
            lines.push(entry(0, 0, 1, 1));
        });
        expiry(h).counts = all_kept(3, 4);
    });
    assert!(told.contains("4 lines, 1 long sections in them, 3 notices drawn"));
}

/// Of the three lines of the shared example the second is removed, of 2 lots that
/// section 0 buys of section 2.
#[test]
fn a_removed_line_is_in_the_history_and_not_in_the_register() {
    let mut history = history_of(&shared());
    let Expiry {
        counts,
        formed,
        register,
        lapsed,
        ..
    } = expiry(&mut history);
    let lines = [entry(0, 0, 1, 2), entry(0, 4, 2, 2), entry(4, 1, 2, 1)];
    assert_eq!(formed[..], lines);
    assert_eq!(register[..], [lines[0], lines[2]]);
    assert_eq!(lapsed[..], [2, 0, 2, 0, 0]);
    assert_eq!((counts.lines, counts.kept), (3, 2));
}

#[test]
fn removed_lots_in_another_list_break_demand_3() {
    let delivered = breach_of(&shared(), |h| {
        let expiry = expiry(h);
        for section in [0, 2] {
            expiry.delivered[section] += std::mem::take(&mut expiry.lapsed[section]);
        }
    });
    assert!(delivered.contains("section 0: 2 lots in the register, 4 in its list"));
    let buyer_alone = breach_of(&shared(), |h| expiry(h).lapsed[2] = 0);
    assert!(buyer_alone.contains("section 2: [1, 3, 0] delivered, terminated and lapsed of -6"));
    let terminated = breach_of(&shared(), |h| {
        let expiry = expiry(h);
        expiry.terminated[2] += std::mem::take(&mut expiry.lapsed[2]);
    });
    assert!(terminated.contains("section 2: 2 lots in removed lines, 0 in its list"));
}

#[test]
fn a_register_unlike_the_lines_kept_breaks_demand_3() {
    let never = breach_of(&shared(), |h| expiry(h).register = expiry(h).formed.clone());
    assert!(never.contains("section 0: 4 lots in the register, 2 in its list"));
    let turned = breach_of(&shared(), |h| expiry(h).register.reverse());
    assert_eq!(turned, "the register is not the lines kept");
}

/// Where D000001 is the same person too, two of the three lines are removed. Of
/// the long sections and the notices drawn those of the line kept alone would make
/// a limit of 1; with the others it is 4.
#[test]
fn the_line_limit_takes_in_what_removed_lines_bring() {
    let mut case = shared();
    case.events[4] = section(4, false, "D000001", 1);
    let mut history = history_of(&case);
    assert_eq!(history.demand_three(), Ok(()));
    assert_eq!(expiry(&mut history).register, [entry(0, 0, 1, 2)]);
    assert_eq!(expiry(&mut history).counts.lines, 3);
    let told = breach_of(&case, |h| {
        expiry(h).formed.extend([entry(4, 1, 2, 0); 2]);
        expiry(h).counts.lines += 2;
    });
    assert_eq!(told, "5 lines, 2 long sections in them, 3 notices drawn");
}

#[test]
fn the_bytes_of_each_accepted_file_are_those_of_the_writer() {
    let mut accepted = 0;
    for seed in 0..1_600 {
        let bytes = generate::file(seed);
        let mut lists = Lists::full();
        let reading = whole::read(&bytes, lists.lend());
        if reading.answer.is_err() {
            continue;
        }
        let mut reader = Reader::new(&bytes);
        let events: Vec<Event> = (0..reading.place)
            .map(|_| reader.read().event.unwrap())
            .collect();
        let (lot, w, r) = file::contract_in(&bytes);
        assert_eq!(file::write(lot, w, r, &events), Ok(bytes), "seed {seed}");
        accepted += 1;
    }
    assert!(accepted > 500, "{accepted} accepted files");
}

#[test]
fn a_read_answers_as_its_events_called_one_by_one() {
    for seed in 0..800 {
        let bytes = generate::file(seed);
        let Ok(n) = file::events_in(&bytes) else {
            continue;
        };
        let mut reader = Reader::new(&bytes);
        let events: Vec<_> = (0..n).map_while(|_| reader.read().event.ok()).collect();
        let (lot, w, r) = file::contract_in(&bytes);
        let Some(Ending { history, .. }) = ending(Contract { lot, w, r }, &full(&events)) else {
            continue;
        };
        let refused = history.steps.iter().position(|step| step.answer.is_err());
        let last = history.steps.last().map(|step| &step.answer);
        let wanted = match refused {
            Some(place) => (history.steps[place].answer.clone().err(), place),
            None if events.len() < n => (Some(Refusal::Malformed), events.len()),
            None if matches!(last, Some(Ok(Outcome::Expiry(_)))) => (None, n),
            None => (Some(Refusal::NoExpiryLast), n),
        };
        let mut lists = Lists::full();
        let reading = whole::read(&bytes, lists.lend());
        assert_eq!((reading.answer.err(), reading.place), wanted, "seed {seed}");
    }
}

/// The margins of one lot bought at a price, session by session, as the
/// specification's 2.1.3 writes them: the first session of a day is the day
/// session, the second the evening session.
fn margins_by_specification(k: u64, entry: u32, first: usize, prices: &[u32]) -> Vec<i64> {
    let v = |price: u32| value(price, k);
    let mut paid = vec![0; first];
    for (at, &price) in prices.iter().enumerate().skip(first) {
        let evening = at % 2 == 1;
        let margin = if !evening && at == first {
            v(price) - v(entry)
        } else if !evening {
            v(price) - v(prices[at - 1])
        } else if at == first {
            v(price) - v(entry)
        } else {
            // VM2 = VM - VM1, VM from the entry or from the evening before.
            let computed_evening_before = at >= first + 2;
            let from = if computed_evening_before {
                prices[at - 2]
            } else {
                entry
            };
            (v(price) - v(from)) - paid[at - 1]
        };
        paid.push(margin);
    }
    paid
}

#[test]
fn margins_are_the_specifications_trade_by_trade() {
    for seed in (0..1_600).filter(|&seed| generate::kind(seed) == generate::Kind::Medium) {
        let Some(history) = history(seed) else {
            continue;
        };
        let accepted: Vec<_> = history
            .steps
            .iter()
            .filter(|step| step.answer.is_ok())
            .collect();
        let sessions: Vec<(u32, &Vec<i64>)> = accepted
            .iter()
            .filter_map(|step| match (step.event, &step.answer) {
                (Event::Session { price }, Ok(Outcome::Session { margins })) => {
                    Some((price, margins))
                }
                _ => None,
            })
            .collect();
        let prices: Vec<u32> = sessions.iter().map(|(price, _)| *price).collect();
        let k = factor(history.w, history.r);
        let mut paid = vec![[0_i64; 128]; prices.len()];
        let mut first = 0;
        for step in &accepted {
            match step.event {
                Event::Session { .. } => first += 1,
                Event::Trade {
                    buyer,
                    seller,
                    price,
                    lots,
                } => {
                    let margins = margins_by_specification(k, price, first, &prices);
                    for (session, margin) in margins.into_iter().enumerate() {
                        paid[session][usize::from(buyer)] += i64::from(lots) * margin;
                        paid[session][usize::from(seller)] -= i64::from(lots) * margin;
                    }
                }
                _ => {}
            }
        }
        for (paid, (_, margins)) in paid.iter().zip(sessions) {
            assert_eq!(paid[..margins.len()], margins[..], "seed {seed}");
        }
    }
}
