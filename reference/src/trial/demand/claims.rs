//! The claims of demand 3, from the accepted calls of a history.

use super::{Entry, Expiry, History, Outcome, Step};
use crate::reading::calls::Counts;
use crate::reading::file::event::Event;
use crate::reading::value::{factor, value};
use std::collections::BTreeMap;

/// An accepted trade.
#[derive(Clone, Copy, Debug)]
struct Trade {
    buyer: usize,
    seller: usize,
    price: u32,
    lots: i64,
}

/// Says what is wrong where a claim does not hold.
fn claim(holds: bool, what: impl FnOnce() -> String) -> Result<(), String> {
    if holds { Ok(()) } else { Err(what()) }
}

impl History {
    /// The history as it stood after its first calls.
    pub fn prefix(&self, calls: usize) -> History {
        History {
            steps: self.steps[..calls].to_vec(),
            ..*self
        }
    }

    /// Demand 3, whole.
    pub fn demand_three(&self) -> Result<(), String> {
        self.margins_of_each_session_sum_to_zero()?;
        self.margins_of_each_section_sum_to_its_gain()?;
        self.lots_are_delivered_terminated_or_lapsed()?;
        self.register_holds_the_delivered_lots()?;
        self.removed_lines_hold_the_lapsed_lots()?;
        self.register_is_the_lines_kept()?;
        self.answer_counts_the_lines()?;
        self.no_notice_is_drawn_beyond_its_lots()?;
        self.lines_are_few()
    }

    /// Whether an expiry was accepted.
    pub fn has_expiry(&self) -> bool {
        self.expiry().is_some()
    }

    /// Whether an accepted expiry removed a line.
    pub fn has_removed_line(&self) -> bool {
        self.expiry()
            .is_some_and(|expiry| expiry.counts.kept < expiry.counts.lines)
    }

    /// "Accepted means answered 0."
    fn accepted(&self) -> impl Iterator<Item = (&Event, &Outcome)> {
        let accepted = |step: &'_ Step| step.answer.is_ok();
        self.steps
            .iter()
            .filter(move |step| accepted(step))
            .map(|step| (&step.event, step.answer.as_ref().expect("an accepted call")))
    }

    /// The participants in the order of the accepted section calls.
    fn participants(&self) -> Vec<u32> {
        let participant = |event: &Event| match *event {
            Event::Section { participant, .. } => Some(participant),
            _ => None,
        };
        self.accepted()
            .filter_map(|(event, _)| participant(event))
            .collect()
    }

    /// The margins and the price of every accepted session.
    fn sessions(&self) -> impl Iterator<Item = (u32, &Vec<i64>)> {
        self.accepted()
            .filter_map(|(event, outcome)| match (event, outcome) {
                (Event::Session { price }, Outcome::Session { margins }) => Some((*price, margins)),
                _ => None,
            })
    }

    /// The accepted trades, all of them.
    fn trades(&self) -> Vec<Trade> {
        self.accepted()
            .filter_map(|(event, _)| as_trade(event))
            .collect()
    }

    /// "over the accepted trades before the last accepted session"
    fn trades_before_last_session(&self) -> Vec<Trade> {
        let is_session = |event: &Event| matches!(event, Event::Session { .. });
        let accepted: Vec<&Event> = self.accepted().map(|(event, _)| event).collect();
        let end = accepted
            .iter()
            .rposition(|event| is_session(event))
            .unwrap_or(0);
        accepted[..end]
            .iter()
            .filter_map(|event| as_trade(event))
            .collect()
    }

    /// "lots bought less sold, over all accepted trades"
    fn net_lots(&self) -> Vec<i64> {
        let mut net = vec![0; self.participants().len()];
        for trade in self.trades() {
            net[trade.buyer] += trade.lots;
            net[trade.seller] -= trade.lots;
        }
        net
    }

    /// The accepted notices: lots by section and elevator.
    fn notices(&self) -> BTreeMap<(u8, u8), u64> {
        let mut notices = BTreeMap::new();
        for (event, _) in self.accepted() {
            if let Event::Notice {
                section,
                elevator,
                lots,
            } = *event
            {
                *notices.entry((section, elevator)).or_default() += u64::from(lots);
            }
        }
        notices
    }

    /// "A notice's drawn lots are those of the lines formed with its section as
    /// seller at its elevator; it is drawn where there are any." The line limit
    /// "takes in the notices of removed lines" (document 02, a).
    fn drawn(&self) -> BTreeMap<(u8, u8), u64> {
        let mut drawn = BTreeMap::new();
        for line in self.expiry().iter().flat_map(|expiry| &expiry.formed) {
            *drawn.entry((line.seller, line.elevator)).or_default() += u64::from(line.lots);
        }
        drawn.retain(|_, lots| *lots > 0);
        drawn
    }

    /// The accepted expiry, where there is one.
    fn expiry(&self) -> Option<&Expiry> {
        self.accepted().find_map(|(_, outcome)| match outcome {
            Outcome::Expiry(expiry) => Some(expiry),
            _ => None,
        })
    }

    /// "The margins of each accepted session sum to zero."
    fn margins_of_each_session_sum_to_zero(&self) -> Result<(), String> {
        for (price, margins) in self.sessions() {
            let sum: i128 = margins.iter().map(|&m| i128::from(m)).sum();
            claim(sum == 0, || {
                format!("the margins of the session at {price} sum to {sum}")
            })?;
        }
        Ok(())
    }

    /// "Each section's margins over all accepted sessions sum to its net lots
    /// times the last session's value, less lots times entry value, bought
    /// plus, sold minus."
    fn margins_of_each_section_sum_to_its_gain(&self) -> Result<(), String> {
        let k = factor(self.w, self.r);
        let last = self
            .sessions()
            .last()
            .map_or(0, |(price, _)| value(price, k));
        let mut gains = vec![0_i128; self.participants().len()];
        for trade in self.trades_before_last_session() {
            let gain = i128::from(trade.lots) * i128::from(last - value(trade.price, k));
            gains[trade.buyer] += gain;
            gains[trade.seller] -= gain;
        }
        let mut paid = vec![0_i128; gains.len()];
        for (_, margins) in self.sessions() {
            paid.iter_mut()
                .zip(margins)
                .for_each(|(sum, &m)| *sum += i128::from(m));
        }
        claim(paid == gains, || {
            format!("margins sum to {paid:?} where the gains are {gains:?}")
        })
    }

    /// "A section's delivered, terminated and lapsed lots together make up the
    /// size of its position" (document 02, a), which is "its lots bought less
    /// sold in the accepted trades".
    fn lots_are_delivered_terminated_or_lapsed(&self) -> Result<(), String> {
        let Some(expiry) = self.expiry() else {
            return Ok(());
        };
        for (i, net) in self.net_lots().iter().enumerate() {
            let lots = [&expiry.delivered, &expiry.terminated, &expiry.lapsed].map(|list| list[i]);
            let sum: u64 = lots.iter().copied().map(u64::from).sum();
            claim(sum == net.unsigned_abs(), || {
                format!("section {i}: {lots:?} delivered, terminated and lapsed of {net}")
            })?;
        }
        Ok(())
    }

    /// "The answer still counts all lines formed, and beside them the lines kept,
    /// which are now the register" (document 02, a).
    fn answer_counts_the_lines(&self) -> Result<(), String> {
        let Some(expiry) = self.expiry() else {
            return Ok(());
        };
        let Counts { lines, kept, .. } = expiry.counts;
        let of = (expiry.formed.len(), expiry.register.len());
        claim((lines, kept) == of, || {
            format!("the answer counts {lines} lines and {kept} kept where there are {of:?}")
        })
    }

    /// The lines formed that are removed and those that are kept: "A line whose
    /// buyer and seller share a participant shall be formed as before and then
    /// taken out, the later lines moving up" (document 02, a).
    fn removed_and_kept(&self) -> (Vec<Entry>, Vec<Entry>) {
        let participants = self.participants();
        let participant = |section: u8| participants[usize::from(section)];
        let formed = self.expiry().into_iter().flat_map(|expiry| &expiry.formed);
        formed.partition(|line| participant(line.buyer) == participant(line.seller))
    }

    /// "the lines kept, which are now the register" (document 02, a)
    fn register_is_the_lines_kept(&self) -> Result<(), String> {
        let Some(expiry) = self.expiry() else {
            return Ok(());
        };
        claim(expiry.register == self.removed_and_kept().1, || {
            "the register is not the lines kept".to_string()
        })
    }

    /// "its lots in the register equal its delivered lots"
    fn register_holds_the_delivered_lots(&self) -> Result<(), String> {
        self.expiry().map_or(Ok(()), |expiry| {
            lots_equal(&expiry.register, "the register", &expiry.delivered)
        })
    }

    /// A removed line's "lots go to a third section list, "lapsed"" (document
    /// 02, a).
    fn removed_lines_hold_the_lapsed_lots(&self) -> Result<(), String> {
        self.expiry().map_or(Ok(()), |expiry| {
            let (removed, _) = self.removed_and_kept();
            lots_equal(&removed, "removed lines", &expiry.lapsed)
        })
    }

    /// "No notice is drawn beyond its lots."
    fn no_notice_is_drawn_beyond_its_lots(&self) -> Result<(), String> {
        let notices = self.notices();
        for (place, lots) in self.drawn() {
            let noticed = notices.get(&place).copied().unwrap_or(0);
            claim(lots <= noticed, || {
                format!("section and elevator {place:?}: {lots} lots drawn of {noticed}")
            })?;
        }
        Ok(())
    }

    /// "If the expiry's answer counts any line, it counts at most the
    /// delivering long sections and the drawn notices together, less one." The
    /// limit takes in "long sections with lapsed lots" (document 02, a).
    fn lines_are_few(&self) -> Result<(), String> {
        let Some(expiry) = self.expiry() else {
            return Ok(());
        };
        let lines = expiry.counts.lines;
        let takes_part = |i: usize| expiry.delivered[i] > 0 || expiry.lapsed[i] > 0;
        let sections = self.net_lots().into_iter().enumerate();
        let long = sections
            .filter(|&(i, net)| net > 0 && takes_part(i))
            .count();
        let drawn = self.drawn().len();
        claim(lines == 0 || lines < long + drawn, || {
            format!("{lines} lines, {long} long sections in them, {drawn} notices drawn")
        })
    }
}

/// "A section's lots in it are those of the lines naming it as buyer or seller":
/// whether they are those of a section list.
fn lots_equal(lines: &[Entry], name: &str, list: &[u32]) -> Result<(), String> {
    for (i, &wanted) in list.iter().enumerate() {
        let names = |line: &&Entry| [line.buyer, line.seller].map(usize::from).contains(&i);
        let named = lines.iter().filter(names);
        let lots: u64 = named.map(|line| u64::from(line.lots)).sum();
        claim(lots == u64::from(wanted), || {
            format!("section {i}: {lots} lots in {name}, {wanted} in its list")
        })?;
    }
    Ok(())
}

/// The trade of an event that is one.
fn as_trade(event: &Event) -> Option<Trade> {
    match *event {
        Event::Trade {
            buyer,
            seller,
            price,
            lots,
        } => Some(Trade {
            buyer: usize::from(buyer),
            seller: usize::from(seller),
            price,
            lots: i64::from(lots),
        }),
        _ => None,
    }
}
