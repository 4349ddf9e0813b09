//! The comparison over the answers of calls, and the files it gives: wrong
//! readings and wrong programs are found.

mod common;

use common::expiry_rows::{self, answered};
use common::programs::{compared, folder};
use std::path::{Path, PathBuf};
use std::process::Output;
use wheat_delivery::reading::answers::{Caller, opened, printed};
use wheat_delivery::reading::book::{Book, TRADES};
use wheat_delivery::reading::file::Reader;
use wheat_delivery::reading::file::event::Event;
use wheat_delivery::reading::refusal::Refusal;
use wheat_delivery::trial::calls::reach::Reach;
use wheat_delivery::trial::calls::{file, inputs};
use wheat_delivery::trial::hand::worked;

const CALLS: &str = env!("CARGO_BIN_EXE_calls");
const COMPARE_CALLS: &str = env!("CARGO_BIN_EXE_compare_calls");

fn compare(program: &str, count: &str, seed: &str, folder: &Path) -> Output {
    compared(COMPARE_CALLS, program, count, seed, folder)
}

#[cfg(unix)]
fn difference(name: &str, script: &str) -> String {
    let script = script.replace("CALLS", CALLS);
    common::programs::difference(COMPARE_CALLS, name, &script)
}

fn seeds(first: u64, count: u64) -> Vec<u64> {
    (0..count).map(|i| first.wrapping_add(i)).collect()
}

fn reach_of(files: impl IntoIterator<Item = Vec<u8>>) -> Reach {
    let mut reach = Reach::default();
    files.into_iter().for_each(|file| reach.add(&file));
    reach
}

#[test]
fn the_same_seeds_give_the_same_inputs() {
    let seeds = seeds(u64::MAX - 20, 40);
    let named = || inputs(&seeds).map(|input| (input.name, input.bytes));
    assert!(named().eq(named()));
}

#[test]
fn the_files_of_500_seeds_reach_everything_and_few_do_not() {
    for first in [0, 1_234_567, u64::MAX - 250] {
        let seeds = seeds(first, 500);
        let reach = reach_of(inputs(&seeds).map(|input| input.bytes));
        assert_eq!(reach.missing(), [""; 0], "{reach}");
    }
    let few = reach_of([worked().file(), vec![]]);
    let missing = few.missing();
    for name in ["refused 2", "14 alone", "3,800 events", "with 0 sections"] {
        assert!(missing.iter().any(|missing| missing == name), "{name}");
    }
    for name in ["refused 25", "no byte", "all accepted", "of 3 to 99"] {
        assert!(missing.iter().all(|missing| missing != name), "{name}");
    }
    assert!(
        few.to_string().contains("not reached: refused 2; "),
        "{few}"
    );
}

/// A list of calls with a slip in it.
struct Slipping {
    caller: Caller,
    /// The book before the run of trades.
    start: Book,
    /// The trades of the run so far.
    run: usize,
    /// What the last trade of the run was refused with.
    refused: Option<Refusal>,
}

type Slip = fn(&mut Slipping, Event) -> Result<String, Refusal>;

/// Each event with what a program with a slip in its calls prints for it.
fn rows(n: usize, book: Book, file: &[u8], slip: Slip) -> Vec<(Result<Event, Refusal>, String)> {
    let mut list = Slipping {
        start: book.clone(),
        caller: Caller::new(book),
        run: 0,
        refused: None,
    };
    let row = |next: usize| {
        let event = (Reader { file, next }).read().event;
        let in_run = event.as_ref().is_ok_and(is_trade);
        if !in_run || list.run == 0 {
            list.run = 0;
            list.start = list.caller.book.clone();
        }
        let answer = event.and_then(|event| slip(&mut list, event));
        list.run += usize::from(in_run);
        list.refused = answer.as_ref().err().copied();
        let row = match answer {
            Ok(rows) => format!("{next} 0\n{rows}"),
            Err(refusal) => format!("{next} {}\n", refusal.number()),
        };
        (event, row)
    };
    (0..n).map(row).collect()
}

fn slipping(file: &[u8], slip: Slip) -> String {
    match opened(file) {
        Ok((n, book)) => rows(n, book, file, slip)
            .into_iter()
            .map(|(_, row)| row)
            .collect(),
        Err(_) => printed(file),
    }
}

/// The rows of trades wait for the next call, and so come after the row of an
/// event that does not read.
fn held_back(file: &[u8]) -> String {
    let Ok((n, book)) = opened(file) else {
        return printed(file);
    };
    let (mut text, mut held) = (String::new(), String::new());
    for (event, row) in rows(n, book, file, RIGHT) {
        match event {
            Ok(Event::Trade { .. }) => held += &row,
            Ok(_) => text += &(std::mem::take(&mut held) + &row),
            Err(_) => text += &row,
        }
    }
    text + &held
}

const RIGHT: Slip = |list, event| list.caller.call(&event);

fn is_trade(event: &Event) -> bool {
    matches!(event, Event::Trade { .. })
}

/// Buyer, seller, price and lots of a trade.
type Fields = (u8, u8, u32, u32);

/// The event with a trade's fields changed.
fn trade_with(event: Event, change: fn(Fields) -> Fields) -> Event {
    let Event::Trade {
        buyer,
        seller,
        price,
        lots,
    } = event
    else {
        return event;
    };
    let (buyer, seller, price, lots) = change((buyer, seller, price, lots));
    Event::Trade {
        buyer,
        seller,
        price,
        lots,
    }
}

/// Slips of a program that gives trades in blocks.
const SLIPS: [(&str, Slip); 14] = [
    ("the count starts again with each block", |list, event| {
        if is_trade(&event) && list.run == 0 {
            list.caller.book.trades_since = 0;
        }
        list.caller.call(&event)
    }),
    ("the count is not carried on in a block", |list, event| {
        if is_trade(&event) && list.run > 0 {
            list.caller.book.trades_since = list.start.trades_since;
        }
        list.caller.call(&event)
    }),
    ("refused trades are counted", |list, event| {
        let answer = list.caller.call(&event);
        let count = &mut list.caller.book.trades_since;
        *count += u32::from(is_trade(&event) && answer.is_err() && *count < TRADES);
        answer
    }),
    (
        "trades are judged by the book before the block",
        |list, event| {
            let faults = event.faults(&list.start);
            match faults.first() {
                Some(&refusal) if is_trade(&event) => Err(refusal),
                _ if is_trade(&event) => Ok(list.caller.call(&event).unwrap_or_default()),
                _ => list.caller.call(&event),
            }
        },
    ),
    (
        "positions alone are those before the block",
        |list, event| {
            let faults = event.faults(&list.start);
            match is_trade(&event) && faults.contains(&Refusal::PositionLimit) {
                true => Err(faults[0]),
                false => list.caller.call(&event),
            }
        },
    ),
    ("a refused trade stops the rest", |list, event| {
        match list.refused.filter(|_| is_trade(&event) && list.run > 0) {
            Some(refusal) => Err(refusal),
            None => list.caller.call(&event),
        }
    }),
    ("a refused trade undoes its block", |list, event| {
        let answer = list.caller.call(&event);
        if is_trade(&event) && answer.is_err() {
            list.caller.book = list.start.clone();
        }
        answer
    }),
    ("the answers are noughts", |list, event| {
        let answer = list.caller.call(&event);
        match is_trade(&event) {
            true => Ok(answer.unwrap_or_default()),
            false => answer,
        }
    }),
    ("prices and lots are swapped", |list, event| {
        let swap = |(buyer, seller, price, lots)| (buyer, seller, lots, price);
        list.caller.call(&trade_with(event, swap))
    }),
    ("buyers and sellers are swapped", |list, event| {
        let swap = |(buyer, seller, price, lots)| (seller, buyer, price, lots);
        list.caller.call(&trade_with(event, swap))
    }),
    ("a block has room for 2,000 trades", |list, event| {
        match is_trade(&event) && list.run >= 2_000 {
            true => Err(Refusal::TradesFull),
            false => list.caller.call(&event),
        }
    }),
    ("a refused session starts the count again", |list, event| {
        let answer = list.caller.call(&event);
        if matches!(event, Event::Session { .. }) && answer == Err(Refusal::SessionPrice) {
            list.caller.book.trades_since = 0;
        }
        answer
    }),
    ("a refused expiry ends the book", |list, event| {
        let answer = list.caller.call(&event);
        list.caller.book.expired |= matches!(event, Event::Expiry);
        answer
    }),
    (
        "only the first of a block is 5 after an expiry",
        |list, event| {
            let expired = list.caller.book.expired && list.run > 0;
            match is_trade(&event) && expired {
                true => Ok(String::new()),
                false => list.caller.call(&event),
            }
        },
    ),
];

#[test]
fn every_slip_in_the_calls_shows_in_some_file() {
    let files: Vec<Vec<u8>> = seeds(1, 160).into_iter().map(file).collect();
    let right = |file: &Vec<u8>| slipping(file, RIGHT) == printed(file);
    assert!(files.iter().all(right));
    assert!(files.iter().any(|file| held_back(file) != printed(file)));
    for (name, slip) in SLIPS {
        let differs = |file: &&Vec<u8>| slipping(file, slip) != printed(file);
        assert!(files.iter().any(|file| differs(&file)), "{name}");
    }
}

#[test]
fn every_slip_in_what_is_removed_shows_in_some_file() {
    let files: Vec<Vec<u8>> = seeds(1, 160).into_iter().map(file).collect();
    let differs = |file: &Vec<u8>, slip| answered(file, slip) != printed(file);
    assert!(!files.iter().any(|file| differs(file, expiry_rows::RIGHT)));
    for (name, slip) in expiry_rows::SLIPS {
        assert!(files.iter().any(|file| differs(file, slip)), "{name}");
    }
}

type Misprint = fn(&str) -> String;

/// The rows with the three counts of an expiry put otherwise.
fn with_counts(rows: &str, put: fn(&str, &str, &str) -> [String; 3]) -> String {
    let counts = |row: &str| {
        let counts: Vec<&str> = row.strip_prefix("expiry ")?.split(' ').collect();
        let counts = put(counts[0], counts[1], counts[2]).join(" ");
        Some(format!("expiry {counts}\n"))
    };
    let row = |row: &str| counts(row).unwrap_or(format!("{row}\n"));
    rows.lines().map(row).collect()
}

/// Slips in what is printed, given the rows that should be.
const ROWS: [(&str, Misprint); 8] = [
    ("no row without sections", |rows| {
        rows.replace("margins\n", "")
    }),
    ("a space too many", |rows| {
        rows.replace("margins\n", "margins \n")
    }),
    ("no sign", |rows| rows.replace(" -", " ")),
    ("lines for pairs", |rows| {
        with_counts(rows, |_, lines, kept| {
            [lines, lines, kept].map(str::to_string)
        })
    }),
    ("lines kept for lines formed", |rows| {
        with_counts(rows, |pairs, _, kept| {
            [pairs, kept, kept].map(str::to_string)
        })
    }),
    ("lines formed for lines kept", |rows| {
        with_counts(rows, |pairs, lines, _| {
            [pairs, lines, lines].map(str::to_string)
        })
    }),
    ("lines removed for lines kept", |rows| {
        with_counts(rows, |pairs, lines, kept| {
            let number = |text: &str| text.parse::<usize>().unwrap();
            let removed = number(lines) - number(kept);
            [pairs.to_string(), lines.to_string(), removed.to_string()]
        })
    }),
    ("the end of a file is judged", |rows| {
        match rows.contains("expiry") {
            true => rows.to_string(),
            false => format!("{rows}{} 27\n", rows.lines().count()),
        }
    }),
];

#[test]
fn every_slip_in_the_rows_shows_in_some_file() {
    let printed: Vec<String> = inputs(&seeds(1, 160))
        .map(|input| printed(&input.bytes))
        .collect();
    for (name, slip) in ROWS {
        assert!(printed.iter().any(|rows| slip(rows) != *rows), "{name}");
    }
}

#[test]
fn a_comparison_with_a_program_that_agrees_ends_well() {
    let output = compare(CALLS, "500", "7", &folder("calls-agrees"));
    let text = String::from_utf8(output.stdout).unwrap();
    let agree = "522 of 522 files agree\nfiles 522, ";
    assert!(text.starts_with(agree), "{text}");
    assert!(text.ends_with("everything was reached\n"), "{text}");
    assert!(output.status.success() && output.stderr.is_empty());
}

#[test]
fn few_files_do_not_reach_everything_and_may_agree() {
    let output = compare(CALLS, "1", "1", &folder("calls-few"));
    let text = String::from_utf8(output.stdout).unwrap();
    assert!(text.contains("not reached: "), "{text}");
    assert!(output.status.success());
}

#[cfg(unix)]
#[test]
fn a_program_that_prints_its_input_differs_and_the_first_is_kept() {
    let folder = folder("calls-cat");
    let output = compare("/bin/cat", "3", "1", &folder);
    let text = String::from_utf8(output.stdout).unwrap();
    let first = "first that does not: no byte, row 1: \
        wanted is \"refused 25 0\", the program has \"\"; kept: ";
    assert!(text.contains(first), "{text}");
    assert_eq!(output.status.code(), Some(1));
    let kept = |ending: &str| std::fs::read(folder.join("calls").with_extension(ending));
    assert_eq!(kept("events").unwrap(), b"");
    assert_eq!(kept("reference").unwrap(), b"refused 25 0\n");
    assert_eq!(kept("program").unwrap(), b"");
    assert_eq!(std::fs::read_dir(&folder).unwrap().count(), 3);
}

/// What the comparison says of the first file that does not agree.
#[cfg(unix)]
fn first(name: &str, script: &str) -> String {
    let text = difference(name, script);
    let found = text.split("first that does not: ").nth(1);
    found.unwrap_or("none").to_string()
}

#[cfg(unix)]
#[test]
fn a_program_that_stops_reads_or_refuses_otherwise_is_found() {
    let stops = first("calls-stops", "CALLS | sed '/^[0-9]* [1-9][0-9]*$/q'");
    let said = "refused.events, row 17: wanted is \"15 0\", the program has \"\"; ";
    assert!(stops.starts_with(said), "{stops}");
    let cuts = first("calls-cuts", "head -c 64616 | CALLS");
    assert!(
        cuts.starts_with("3,800 events and a byte, row 1: "),
        "{cuts}"
    );
    let piece = first("calls-piece", "dd bs=70000 count=1 2>/dev/null | CALLS");
    assert!(
        piece.starts_with("3,800 events in pieces, row 1: "),
        "{piece}"
    );
    let place = first(
        "calls-place",
        "CALLS | sed 's/^refused \\(.*\\) 0$/refused \\1/'",
    );
    assert!(place.starts_with("no byte, row 1: "), "{place}");
    let short = first("calls-short", "CALLS | head -c 1000000");
    assert!(short.starts_with("the file of most rows, row "), "{short}");
    let count = first("calls-count", "CALLS | sed 's/ 15$/ 0/'");
    assert!(count.starts_with("seed 10, row "), "{count}");
    let lines = first(
        "calls-lines",
        "CALLS | sed 's/^expiry \\(.*\\) [0-9]* \\([0-9]*\\)$/expiry \\1 \\2 \\2/'",
    );
    let both = "wanted is \"expiry 3 3 2\", the program has \"expiry 3 2 2\"; ";
    assert!(lines.starts_with("shared.events, row 20: "), "{lines}");
    assert!(lines.contains(both), "{lines}");
    let end = first("calls-end", "printf %s \"$(CALLS)\"");
    assert!(end.starts_with("no byte, row 2: "), "{end}");
}

#[cfg(unix)]
#[test]
fn a_program_that_fails_or_complains_is_given_no_more() {
    for (name, script, what) in [
        ("calls-fails", "CALLS; exit 3", "ended with a failure"),
        (
            "calls-complains",
            "CALLS; echo file >&2",
            "wrote to standard error",
        ),
    ] {
        let text = difference(name, script);
        let first = format!("first that does not: no byte, the program {what}; ");
        assert!(text.starts_with("0 of 1 files agree\n"), "{text}");
        assert!(text.contains(&first), "{text}");
    }
    let kept = PathBuf::from(env!("CARGO_TARGET_TMPDIR")).join("calls-fails/calls.events");
    assert_eq!(std::fs::read(kept).unwrap(), b"");
}

#[test]
fn a_comparison_with_a_program_that_cannot_be_run_fails() {
    let output = compare("./no-such-program", "3", "1", &folder("calls-missing"));
    assert_eq!(output.status.code(), Some(1));
    assert!(output.stdout.is_empty());
}

#[test]
fn a_comparison_with_a_bad_count_or_seed_fails() {
    let folder = folder("calls-bad");
    for count in ["0", "-1", "", "x", "1.5", "99999999999999999999999"] {
        let output = compare(CALLS, count, "1", &folder);
        assert_eq!(output.status.code(), Some(2), "{count:?}");
        assert!(output.stdout.is_empty());
    }
    assert_eq!(compare(CALLS, "1", "x", &folder).status.code(), Some(2));
}
