//! Files of the right shape in which many calls are refused: lists of calls that
//! go on after a refusal.
//!
//! Some have one refused call and no other. Some mix all calls. Some are runs of
//! trades, of one to thousands, whatever parts them. Some go on after an expiry.
//! Some stand at an edge.

mod alone;
mod edges;
mod growing;
mod runs;

use super::medium::medium;
use super::{Draft, Raw};
use crate::reading::file::event::{Event, encode};
use crate::trial::random::Random;
use alone::alone;
use edges::edge;
pub use edges::widest;
use growing::Growing;
use runs::{hundreds, parted, thousands};

/// The file a seed gives. Of sixteen seeds in a row four have one refused call,
/// three are runs of trades, one goes on after its expiry, one is an edge and the
/// others mix all calls.
pub fn unruly(seed: u64) -> Vec<u8> {
    let random = &mut Random::new(seed);
    let turn = (seed / 16) as usize;
    let draft = match seed % 16 {
        0 | 4 | 8 | 12 => alone(random, (seed / 4) as usize),
        2 => parted(random),
        6 => hundreds(random),
        10 => thousands(random, turn),
        13 => ended(random),
        14 => edge(random, turn),
        _ => mixed(random),
    };
    draft.bytes()
}

/// All calls, accepted and refused; sometimes more of them after an expiry.
fn mixed(random: &mut Random) -> Draft {
    let mut list = Growing::new(random);
    list.sections(0..=5);
    for _ in 0..list.some(20..=120) {
        list.any();
    }
    if list.random.percent(60) {
        list.finish();
        for _ in 0..list.some(0..=11) {
            list.any();
        }
    }
    list.draft()
}

/// A market with an expiry too early, and calls of every kind after its own.
fn ended(random: &mut Random) -> Draft {
    let Draft { contract, events } = medium(random);
    let is_session = |(kind, _): &Raw| *kind == 3;
    let session = events.iter().position(is_session).unwrap_or(0);
    let early = random.below(session + 1);
    let mut list = Growing::in_contract(random, contract);
    for (place, raw) in events.into_iter().enumerate() {
        if place == early {
            list.add(Event::Expiry);
        }
        list.add_raw(raw);
    }
    list.add_raw(encode(&Event::Expiry));
    list.trades(1..=3, 50);
    list.unreadable();
    for _ in 0..list.some(0..=60) {
        list.any();
    }
    list.draft()
}
