//! The files of the folder `examples`, by name.

use super::generate::{Contract, sized};
use super::hand::{Case, condition, notice, section, session, trade, worked};
use crate::reading::file::event::Event;

/// The worked example; the same with a notice filed twice, which 20 refuses at
/// 14; one like it in which a line is removed; one with ties in every step; and a
/// file at the limits, of 128 sections, 256 notices and 3,800 events, whose
/// register has 375 lines.
pub fn examples() -> [(&'static str, Vec<u8>); 5] {
    let mut refused = worked();
    refused.events.pop();
    refused.events.extend([notice(2, 4, 2), Event::Expiry]);
    let fullest = sized(128, 3_800).expect("room for all");
    [
        ("worked.events", worked().file()),
        ("refused.events", refused.file()),
        ("shared.events", shared().file()),
        ("ties.events", ties().file()),
        ("fullest.events", fullest),
    ]
}

/// The worked example's contract, in which A000001 and B000001 are one person's
/// and D000001 buys too. Three lines are formed and the second is removed, so that
/// the third moves up; of B000001's six lots one is delivered, three are
/// terminated for C000001 and two lapse.
pub fn shared() -> Case {
    Case {
        claim: "the same person on both sides",
        events: vec![
            section(1, false, "A000001", 1),
            section(1, true, "A000002", 2),
            section(2, true, "B000001", 1),
            section(3, false, "C000001", 3),
            section(4, false, "D000001", 4),
            trade(0, 1, 1_500_000, 2),
            trade(0, 2, 1_500_000, 2),
            trade(3, 2, 1_510_000, 3),
            trade(4, 2, 1_510_000, 1),
            session(1_520_000),
            condition(0, true),
            condition(1, true),
            condition(2, true),
            condition(4, true),
            notice(1, 0, 2),
            notice(2, 4, 2),
            notice(2, 1, 4),
            Event::Expiry,
        ],
        prints: "\
register 2
A000001 0 A000002 2 50
D000001 1 B000001 1 25
A000001 2 0 2 2000000
A000002 2 0 0 -1000000
B000001 1 3 2 -2000000
C000001 0 3 0 750000
D000001 1 0 0 250000
",
        ..worked()
    }
}

/// What a reader of an explanation meets: sections that fail in three codes, for
/// the three reasons; a tie in steps 2, 3 and 4 and in both stages; a section that
/// is split; values that are rounded; and lines of one person, which are removed.
pub fn ties() -> Case {
    let mut events = tied_sections();
    events.extend(tied_trades());
    events.extend([session(1_500_030), session(1_500_050), session(1_500_100)]);
    events.extend((0..13).filter(|&i| i != 2).map(|i| condition(i, true)));
    events.extend([
        notice(1, 0, 2),
        notice(1, 1, 2),
        notice(3, 0, 2),
        notice(4, 2, 2),
        notice(8, 3, 3),
        notice(11, 2, 3),
        notice(12, 2, 3),
        notice(12, 3, 3),
        notice(11, 3, 3),
        Event::Expiry,
    ]);
    Case {
        claim: "ties in every step",
        contract: Contract {
            lot: 25,
            w: 1,
            r: 3,
        },
        events,
        prints: "\
register 7
A000001 2 A000005 1 25
D000001 2 E000001 3 75
D000002 3 E000001 3 75
D000001 2 E000002 2 50
D000002 3 E000002 2 50
A000001 2 E000002 1 25
B000003 3 E000002 1 25
A000001 2 0 4 198
A000002 0 0 4 -124
A000003 0 3 0 96
A000004 0 2 0 -58
A000005 1 1 0 -58
B000001 0 3 0 -96
B000002 0 3 0 93
B000003 1 4 0 151
C000001 0 4 0 -120
D000001 5 0 0 145
D000002 5 0 0 140
E000001 6 0 0 -198
E000002 6 0 0 -169
",
    }
}

/// Code 1: A000003 fails, its condition not met, and A000001 and A000002 are one
/// person's. Code 2: B000001 fails, without the seller mark. Code 3: C000001 fails,
/// its notices short of its lots. Codes 4 and 5: sections of one size.
fn tied_sections() -> Vec<Event> {
    vec![
        section(1, false, "A000001", 1),
        section(1, true, "A000002", 1),
        section(1, false, "A000003", 3),
        section(1, true, "A000004", 4),
        section(1, true, "A000005", 5),
        section(2, false, "B000001", 6),
        section(2, false, "B000002", 7),
        section(2, false, "B000003", 8),
        section(3, true, "C000001", 9),
        section(4, false, "D000001", 10),
        section(4, false, "D000002", 11),
        section(5, true, "E000001", 12),
        section(5, true, "E000002", 13),
    ]
}

/// Longs 6, 3, 3, 5, 5 and 5; shorts 4, 2, 2, 3, 4, 6 and 6.
fn tied_trades() -> Vec<Event> {
    vec![
        trade(0, 11, 1_500_000, 6),
        trade(2, 5, 1_500_003, 3),
        trade(6, 1, 1_500_006, 3),
        trade(7, 1, 1_500_006, 1),
        trade(7, 8, 1_500_009, 4),
        trade(9, 3, 1_500_012, 2),
        trade(9, 4, 1_500_012, 2),
        trade(9, 12, 1_500_012, 1),
        trade(10, 12, 1_500_015, 5),
    ]
}
