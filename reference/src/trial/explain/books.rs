//! Accepted files with every turn of an expiry: reasons to fail, ties in every step
//! and stage, a split section, lines taken out, and numbers at their limits.

use crate::reading::file::event::Event;
use crate::reading::file::write;
use crate::trial::hand::{condition, notice, section, session, trade};
use crate::trial::input::Input;

pub(super) fn inputs() -> impl Iterator<Item = Input> {
    small().into_iter().chain(rounding()).chain(wide())
}

/// A section of a book: its code, settlement code, lots bought less sold, notices.
struct Member {
    code: &'static str,
    settlement_code: u8,
    lots: i32,
    notices: Vec<(u8, u32)>,
    /// None: no other section has it.
    participant: Option<u32>,
    seller: bool,
    met: bool,
}

/// A section that is sound with these notices.
fn sound(settlement_code: u8, code: &'static str, lots: i32, notices: &[(u8, u32)]) -> Member {
    Member {
        code,
        settlement_code,
        lots,
        notices: notices.to_vec(),
        participant: None,
        seller: lots < 0,
        met: true,
    }
}

impl Member {
    fn unmet(self) -> Member {
        Member { met: false, ..self }
    }

    fn unmarked(self) -> Member {
        Member {
            seller: false,
            ..self
        }
    }

    fn of(self, participant: u32) -> Member {
        Member {
            participant: Some(participant),
            ..self
        }
    }
}

/// Trades of up to 10,000 lots that give the sections their lots, sum zero.
fn trades(price: u32, members: &[Member]) -> Vec<Event> {
    let mut open: Vec<i32> = members.iter().map(|member| member.lots).collect();
    let mut trades = Vec::new();
    while let Some(buyer) = open.iter().position(|&lots| lots > 0) {
        let seller = open.iter().position(|&lots| lots < 0).expect("sum zero");
        let lots = open[buyer].min(-open[seller]).min(10_000);
        open[buyer] -= lots;
        open[seller] += lots;
        trades.push(trade(buyer as u8, seller as u8, price, lots as u32));
    }
    assert!(open.iter().all(|&lots| lots == 0), "sum zero");
    trades
}

/// The file of a book: trades at one price, sessions, expiry.
fn file(name: &str, [w, r]: [u32; 2], [price, last]: [u32; 2], members: &[Member]) -> Input {
    let numbered = || (0..).zip(members);
    let opened = numbered().map(|(i, member): (u8, _)| {
        let participant = member.participant.unwrap_or(1_000 + u32::from(i));
        let (code, seller) = (member.settlement_code, member.seller);
        section(code, seller, member.code, participant)
    });
    let mut events: Vec<Event> = opened.collect();
    events.extend(trades(price, members));
    events.push(session(last));
    events.extend(numbered().map(|(i, member)| condition(i, member.met)));
    for (i, member) in numbered() {
        let filed = member.notices.iter();
        events.extend(filed.map(|&(elevator, lots)| notice(i, elevator, lots)));
    }
    events.push(Event::Expiry);
    Input::new(name, write(1_000, w, r, &events).expect("few events"))
}

/// W and R with which a kopeck is halved: the value of 1 is 0.5, rounded up.
const HALF: [u32; 2] = [1, 2];

fn book(name: &str, members: Vec<Member>) -> Input {
    file(name, HALF, [6, 7], &members)
}

fn small() -> Vec<Input> {
    vec![
        three_codes(),
        net_of_nothing(),
        against_each_other(),
        book("document 01, failing +3 in code 3", over_codes(4)),
        book("document 01, the +1 in code 1", over_codes(1)),
        capped(),
        outside(),
        stages(),
        one_buyer(),
        one_buyer_two_sellers(),
        outside_stages(),
        persons(),
        nothing_left(),
        notices_of_all(),
        evenings(),
    ]
}

/// D is 3, and code 1 has sound lots on both sides, whose net is 0.
fn net_of_nothing() -> Input {
    book(
        "a sound net of 0",
        vec![
            sound(3, "C000001", 3, &[]).unmet(),
            sound(2, "B000001", -3, &[(1, 3)]),
            sound(1, "A000001", 2, &[]),
            sound(1, "A000002", -2, &[(0, 2)]),
        ],
    )
}

/// Sections that fail in three codes, for each reason alone and for all three;
/// ties in steps 2 and 3, sections that give nothing among them; D below 0.
fn three_codes() -> Input {
    book(
        "three codes fail",
        vec![
            sound(1, "A000001", 5, &[]).unmet(),
            sound(1, "A000002", -2, &[(0, 2)]).unmarked(),
            sound(1, "A000004", -2, &[(0, 1), (1, 1)]),
            sound(1, "A000003", -2, &[(3, 2)]),
            sound(2, "B000001", -4, &[(0, 3)]),
            sound(2, "B000003", 3, &[]),
            sound(2, "B000002", 3, &[]),
            sound(3, "C000001", -3, &[(2, 1)]).unmarked().unmet(),
            sound(3, "C000002", 0, &[]).unmet(),
            sound(4, "D000002", 2, &[]),
            sound(4, "D000001", 2, &[]),
            sound(5, "E000001", -2, &[(31, 2)]),
        ],
    )
}

/// Failing lots of one code close each other, D(c) is 0; in another more are sound
/// on the other side than fail, and one gives nothing.
fn against_each_other() -> Input {
    book(
        "failing lots close each other",
        vec![
            sound(7, "A000001", 2, &[]).unmet(),
            sound(7, "A000002", -2, &[]).unmet(),
            sound(7, "A000003", 1, &[]),
            sound(7, "A000004", -1, &[(4, 1)]),
            sound(8, "B000001", -1, &[]),
            sound(8, "B000003", 1, &[]),
            sound(8, "B000002", 1, &[]),
            sound(9, "C000001", 1, &[]).unmet(),
            sound(9, "C000003", -1, &[(1, 1)]),
            sound(9, "C000002", -1, &[(1, 1)]),
        ],
    )
}

/// "Failing +3 in code 3; sound A000001 -2 (code 1), A000002 -2 (code 2), +1 (code
/// 4): they lose 2 and 1. With the +1 in code 1: 1 and 2."
fn over_codes(plus: u8) -> Vec<Member> {
    vec![
        sound(3, "F000001", 3, &[]).unmet(),
        sound(1, "A000001", -2, &[(0, 2)]),
        sound(2, "A000002", -2, &[(0, 2)]),
        sound(plus, "L000001", 1, &[]),
    ]
}

/// Step 3 where a code's net stops its sections; what fails in two codes goes
/// against each other in D.
fn capped() -> Input {
    book(
        "a net that stops its sections",
        vec![
            sound(1, "A000001", -9, &[(0, 9)]).unmet(),
            sound(2, "B000001", 4, &[]).unmet(),
            sound(3, "C000001", 3, &[]),
            sound(3, "C000002", 3, &[]),
            sound(3, "C000003", -4, &[(7, 4)]),
            sound(4, "D000001", 3, &[]),
            sound(4, "D000002", 2, &[]),
            sound(5, "E000001", -2, &[(6, 2)]),
        ],
    )
}

/// Step 4: ties on the side of the net, one section split and one not reached; a
/// net of 0; nets of both sides.
fn outside() -> Input {
    book(
        "ties on the side of the net",
        vec![
            sound(0, "A000003", 3, &[]),
            sound(0, "A000002", 3, &[]),
            sound(0, "A000001", 3, &[]),
            sound(0, "A000004", -5, &[(0, 5)]),
            sound(1, "B000001", 2, &[]),
            sound(1, "B000002", -2, &[(0, 1), (1, 1)]),
            sound(63, "C000001", -3, &[(1, 2), (0, 1)]),
            sound(63, "C000002", -3, &[(1, 3)]),
            sound(63, "C000003", 2, &[]),
        ],
    )
}

/// Step 6: ties of buyers, of elevators, of pairs and of notices in an inside pass.
fn stages() -> Input {
    book(
        "ties in both stages",
        vec![
            sound(2, "A000002", 4, &[]),
            sound(2, "A000001", 4, &[]),
            sound(2, "A000003", 4, &[]),
            sound(2, "B000002", -6, &[(9, 2), (3, 2), (5, 2)]),
            sound(2, "B000001", -6, &[(9, 2), (3, 2), (5, 2)]),
        ],
    )
}

/// Pairs of one buyer with as many lots, and pairs of others among them.
fn one_buyer() -> Input {
    book(
        "pairs of one buyer",
        vec![
            sound(2, "A000002", 2, &[]),
            sound(2, "A000001", 6, &[]),
            sound(2, "B000001", -8, &[(8, 2), (6, 2), (7, 2), (5, 2)]),
        ],
    )
}

/// The same, with as many lots in two notices at each elevator.
fn one_buyer_two_sellers() -> Input {
    book(
        "pairs of one buyer, notices of two sellers",
        vec![
            sound(2, "A000001", 8, &[]),
            sound(2, "B000002", -4, &[(4, 2), (3, 2)]),
            sound(2, "B000001", -4, &[(4, 2), (3, 2)]),
        ],
    )
}

/// Ties of every sort in the outside pass.
fn outside_stages() -> Input {
    book(
        "ties in the outside pass",
        vec![
            sound(1, "A000002", 4, &[]),
            sound(1, "A000001", 4, &[]),
            sound(2, "B000002", -4, &[(9, 2), (3, 2)]),
            sound(3, "B000001", -4, &[(9, 2), (3, 2)]),
        ],
    )
}

/// Lines taken out inside and outside, the first and the last among them.
fn persons() -> Input {
    book(
        "lines taken out",
        vec![
            sound(1, "A000001", 5, &[]).of(0),
            sound(1, "A000002", -3, &[(0, 1), (1, 2)]).of(0),
            sound(2, "B000001", -3, &[(1, 3)]).of(u32::MAX),
            sound(2, "B000002", 4, &[]).of(u32::MAX),
            sound(3, "C000001", -3, &[(2, 3)]).of(0),
        ],
    )
}

/// All lots are terminated.
fn nothing_left() -> Input {
    book(
        "nothing left",
        vec![
            sound(1, "A000001", 5, &[]).unmet(),
            sound(1, "A000002", -5, &[(0, 5)]),
        ],
    )
}

/// Notices of a long section, of a flat one and of one that fails; a notice of which
/// some lots are inside, some outside and some terminated.
fn notices_of_all() -> Input {
    book(
        "notices of all sections",
        vec![
            sound(1, "A000001", 3, &[(0, 3)]),
            sound(1, "A000002", 0, &[(1, 7)]),
            sound(1, "A000003", -2, &[(1, 1)]),
            sound(1, "A000004", 2, &[]).unmet(),
            sound(1, "A000005", -6, &[(2, 6)]),
            sound(2, "B000001", 3, &[]),
        ],
    )
}

/// K and the values of prices above half and at half.
fn rounding() -> [Input; 2] {
    let members = || [sound(0, "A000001", 1, &[]), sound(0, "A000002", -1, &[])];
    [
        file("above half", [2, 3], [3, 2], &members()),
        file("at half", [1, 150_000], [150_000, 50_000], &members()),
    ]
}

/// Day and evening sessions with values of every sort, sections opened between.
fn evenings() -> Input {
    let mut events = vec![session(1), section(0, false, "A000001", 1)];
    events.extend([session(2), section(1, true, "A000002", 1)]);
    events.extend([1, 2, 3, 4].map(|price| trade(0, 1, 3 * price, 10 * price)));
    events.extend((0..33).map(|i| session(10_000_000 - 3_333_333 * (i % 3))));
    events.extend([condition(0, true), condition(1, true), condition(0, false)]);
    events.extend([notice(1, 0, 100), Event::Expiry]);
    let bytes = write(1, 1, 3, &events).expect("few events");
    Input::new("day and evening sessions", bytes)
}

/// W and R with which K is 10,000,000 and the value of a price a hundred times it.
const DEAR: [u32; 2] = [100, 1];
const MOST_PRICE: u32 = 10_000_000;

fn wide() -> Vec<Input> {
    let prices = [[MOST_PRICE, 1], [1, MOST_PRICE], [MOST_PRICE, MOST_PRICE]];
    let mut files = Vec::new();
    for prices in prices {
        files.push(file("a million lots", DEAR, prices, &millions()));
        files.push(file(
            "a million lots fail",
            DEAR,
            prices,
            &failing_millions(1),
        ));
        files.push(file(
            "a million lots fail",
            DEAR,
            prices,
            &failing_millions(-1),
        ));
    }
    files.push(round_trips(MOST_PRICE, 1));
    files.push(round_trips(1, MOST_PRICE));
    files.push(many_sessions());
    files
}

/// Two buyers and two sellers of a million lots, at one elevator; one of each is
/// one participant's, of the highest number.
fn millions() -> Vec<Member> {
    let million = 1_000_000;
    vec![
        sound(62, "A000002", million, &[]).of(u32::MAX),
        sound(62, "A000001", million, &[]),
        sound(63, "B000002", -million, &[(31, 1_000_000)]),
        sound(63, "B000001", -million, &[(31, 1_000_000)]).of(u32::MAX),
    ]
}

/// Five sections fail with a million lots in one code, long or short, and five in
/// other codes give them.
fn failing_millions(sign: i32) -> Vec<Member> {
    const FAILING: [&str; 5] = ["F000001", "F000002", "F000003", "F000004", "F000005"];
    const GIVING: [&str; 5] = ["G000005", "G000004", "G000003", "G000002", "G000001"];
    let million = sign * 1_000_000;
    let failing = FAILING.map(|code| sound(60, code, million, &[]).unmet());
    let mut members: Vec<Member> = failing.into();
    members.extend((59..).zip(GIVING).map(|(c, code)| match sign {
        1 => sound(c, code, -million, &[(30, 1_000_000)]),
        _ => sound(c, code, -million, &[]),
    }));
    members
}

/// Bases as far as they go: lots bought at one price and sold at another, 2,000
/// trades before the first session, and more after it.
fn round_trips(bought: u32, sold: u32) -> Input {
    let (buys, sells) = (trade(0, 1, bought, 10_000), trade(1, 0, sold, 10_000));
    let mut events = vec![
        section(0, false, "A000001", 1),
        section(0, true, "A000002", 2),
    ];
    events.extend([buys, sells].repeat(950));
    events.extend([buys; 100]);
    events.extend([session(1), session(MOST_PRICE)]);
    events.extend([sells, buys].repeat(850));
    events.extend([session(sold), condition(0, true), condition(1, true)]);
    events.extend([notice(1, 31, 1_000_000), Event::Expiry]);
    let bytes = write(1_000, DEAR[0], DEAR[1], &events).expect("few events");
    Input::new(format!("bought at {bought}, sold at {sold}"), bytes)
}

/// 128 sections, all with lots, and 301 sessions.
fn many_sessions() -> Input {
    let opened = |i: u8| section(i % 64, true, &format!("S{i:06}"), i.into());
    let mut events: Vec<Event> = (0..128).map(opened).collect();
    events.extend((0..64).map(|i| trade(2 * i, 127 - 2 * i, 7 * (1 + u32::from(i)), 10_000)));
    events.extend((0..301).map(|i| session(1 + 33_000 * i)));
    events.extend((0..128).map(|i| condition(i, i % 5 > 0)));
    events.extend((0..64).map(|i| notice(127 - 2 * i, i % 32, 10_000)));
    events.push(Event::Expiry);
    let bytes = write(3, 1, 7, &events).expect("few events");
    Input::new("301 sessions", bytes)
}
