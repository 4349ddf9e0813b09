//! The comparison over the failures that reach a grower, and the cases it gives: wrong
//! readings and wrong programs are found.

mod common;

use common::programs::{compared, folder};
use std::collections::BTreeSet;
use std::path::Path;
use std::process::{Command, Output};
use wheat_delivery::reading::answers::opened;
use wheat_delivery::reading::book::{Book, Section, SessionKind};
use wheat_delivery::reading::expiry::settle;
use wheat_delivery::reading::failures::section_meant;
use wheat_delivery::reading::file::Reader;
use wheat_delivery::reading::file::event::Event;
use wheat_delivery::reading::file::whole::Replay;
use wheat_delivery::trial::failures::reach::Reach;
use wheat_delivery::trial::failures::{Case, cases};

const FAILURES: &str = env!("CARGO_BIN_EXE_failures");
const COMPARE_FAILURES: &str = env!("CARGO_BIN_EXE_compare_failures");

fn compare(program: &str, count: &str, seed: &str, folder: &Path) -> Output {
    compared(COMPARE_FAILURES, program, count, seed, folder)
}

fn seeds(first: u64, count: u64) -> Vec<u64> {
    (0..count).map(|i| first.wrapping_add(i)).collect()
}

/// All cases but those of full books, which take long.
fn short_cases(seeds: &[u64]) -> impl Iterator<Item = Case> {
    cases(seeds).filter(|case| !case.input.name.starts_with("a full book"))
}

#[test]
fn the_same_seeds_give_the_same_cases() {
    let seeds = seeds(u64::MAX - 20, 40);
    let named = || cases(&seeds).map(|case| (case.input.name, case.input.bytes, case.arguments));
    assert!(named().eq(named()));
}

/// But for the full books, which are always given and reached.
#[test]
fn the_cases_of_200_seeds_reach_everything_and_few_do_not() {
    for first in [0, 1_234_567, u64::MAX - 100] {
        let mut reach = Reach::default();
        let mut some = Reach::default();
        for case in short_cases(&seeds(first, 200)) {
            let row = case.prints().unwrap();
            reach.add(&case, &row);
            if ["no byte", "worked.events"].contains(&&case.input.name[..]) {
                some.add(&case, &row);
            }
        }
        let full = "files, with counts: 128 sections and 256 notices, 10 named";
        assert_eq!(reach.missing(), [full], "{reach}");
        let missing = some.missing();
        for name in [
            "the counts: in part alone",
            "so many named, with counts: 10",
            "refused: with 2",
            "files, with counts: no session",
        ] {
            assert!(missing.iter().any(|missing| missing == name), "{name}");
        }
        for name in [
            "the counts: all three",
            "so many named, with counts: 3",
            "refused: with 25",
            "files, with counts: an expiry",
        ] {
            assert!(missing.iter().all(|missing| missing != name), "{name}");
        }
        let said = some.to_string();
        assert!(said.contains("not reached: the counts: in full alone; "));
    }
}

/// A reading with a slip.
#[derive(Clone, Copy, Debug, PartialEq, Eq)]
enum Slip {
    Right,
    // The endings.
    LapsedDelivered,
    LapsedInPart,
    FlatNotAtAll,
    SomeInFull,
    SomeNotAtAll,
    OwnFailureAlone,
    // The patterns.
    OthersMet,
    OthersUnmet,
    OneFailsAtATime,
    NotAllFail,
    AskedAsSet,
    NamedFailAnyway,
    // The refusals.
    ExpiryOfACallAlone,
    FortyBeforeTen,
    TwiceAllowed,
    TwiceByText,
    ElevenAllowed,
    TenTooMany,
    AskedNotNamed,
    NamedNotJudged,
    // The file.
    ExpiryTaken,
    StopsAtRefused,
    StopsAtUnreadable,
    AnyRefusalSaid,
    AtTheLastSession,
    // The arguments.
    DigitsAreNumbers,
    NoNoughtsInFront,
    RoundAt256,
    SignTaken,
    EmptyIsNought,
    CapitalsMeant,
}

const SLIPS: [Slip; 31] = {
    use Slip::*;
    [
        LapsedDelivered,
        LapsedInPart,
        FlatNotAtAll,
        SomeInFull,
        SomeNotAtAll,
        OwnFailureAlone,
        OthersMet,
        OthersUnmet,
        OneFailsAtATime,
        NotAllFail,
        AskedAsSet,
        NamedFailAnyway,
        ExpiryOfACallAlone,
        FortyBeforeTen,
        TwiceAllowed,
        TwiceByText,
        ElevenAllowed,
        TenTooMany,
        AskedNotNamed,
        NamedNotJudged,
        ExpiryTaken,
        StopsAtRefused,
        StopsAtUnreadable,
        AnyRefusalSaid,
        AtTheLastSession,
        DigitsAreNumbers,
        NoNoughtsInFront,
        RoundAt256,
        SignTaken,
        EmptyIsNought,
        CapitalsMeant,
    ]
};

/// What a program with this slip prints.
fn row_of(case: &Case, slip: Slip) -> String {
    match counts_of(case, slip) {
        Ok([full, part, none]) => format!("{full} {part} {none}\n"),
        Err(number) => format!("refused {number}\n"),
    }
}

fn counts_of(case: &Case, slip: Slip) -> Result<[u32; 3], u8> {
    let book = book_of(&case.input.bytes, slip)?;
    let sections: Vec<Option<u8>> = case
        .arguments
        .iter()
        .map(|argument| meant(&book, argument, slip))
        .collect();
    let (asked, named) = (sections[0], &sections[1..]);
    let texts: BTreeSet<&String> = case.arguments[1..].iter().collect();
    let known: BTreeSet<&Option<u8>> = named.iter().collect();
    let twice = match slip {
        Slip::TwiceAllowed => false,
        Slip::TwiceByText => texts.len() < named.len(),
        _ => known.len() < named.len(),
    };
    let most = match slip {
        Slip::ElevenAllowed => 11,
        Slip::TenTooMany => 9,
        _ => 10,
    };
    let asked_named = slip == Slip::AskedNotNamed && named.contains(&asked);
    let forty = named.len() > most || twice || asked_named;
    let ten = asked.is_none() || slip != Slip::NamedNotJudged && named.contains(&None);
    let after_day = book.last_session == SessionKind::Day && book.trades_since == 0;
    match slip {
        _ if book.expired => return Err(5),
        Slip::FortyBeforeTen if forty => return Err(40),
        _ if ten => return Err(10),
        _ if forty => return Err(40),
        Slip::ExpiryOfACallAlone if !after_day => return Err(22),
        _ => {}
    }
    let named: Vec<u8> = named.iter().flatten().copied().collect();
    Ok(counted(book, usize::from(asked.unwrap()), &named, slip))
}

fn book_of(file: &[u8], slip: Slip) -> Result<Book, u8> {
    let (n, book) = opened(file).map_err(|refusal| refusal.number())?;
    let mut replay = Replay::new(book);
    let mut at_session = replay.book.clone();
    for next in 0..n {
        let event = (Reader { file, next }).read().event;
        let taken = match event {
            Ok(Event::Expiry) if slip != Slip::ExpiryTaken => Ok(()),
            Ok(event) => replay.take(&event, 382, 128),
            Err(_) if slip == Slip::StopsAtUnreadable => break,
            Err(refusal) => Err(refusal),
        };
        match taken {
            Err(_) if event.is_ok() && slip == Slip::StopsAtRefused => break,
            Err(refusal) if slip == Slip::AnyRefusalSaid => return Err(refusal.number()),
            _ => {}
        }
        if let (Ok(Event::Session { .. }), Ok(())) = (event, taken) {
            at_session = replay.book.clone();
        }
    }
    let mut book = replay.book;
    if slip == Slip::AtTheLastSession {
        for (section, then) in book.sections.iter_mut().zip(&at_session.sections) {
            section.position = then.position;
        }
    }
    Ok(book)
}

fn meant(book: &Book, argument: &str, slip: Slip) -> Option<u8> {
    let digits = !argument.is_empty() && argument.bytes().all(|byte| byte.is_ascii_digit());
    let number = argument.parse::<u128>().ok();
    let held = |number: u128| (number < book.sections_held as u128).then_some(number as u8);
    match slip {
        Slip::DigitsAreNumbers if digits => number.and_then(held),
        Slip::NoNoughtsInFront if digits && argument.len() > 1 && argument.len() != 7 => {
            let fits = !argument.starts_with('0');
            number.and_then(held).filter(|_| fits)
        }
        Slip::RoundAt256 if digits && argument.len() != 7 => held(number? % 256),
        Slip::SignTaken if argument.starts_with('+') && argument.len() != 7 => {
            number.and_then(held)
        }
        Slip::EmptyIsNought if argument.is_empty() => held(0),
        Slip::CapitalsMeant => section_meant(book, argument.to_ascii_uppercase().as_bytes()),
        _ => section_meant(book, argument.as_bytes()),
    }
}

fn counted(mut book: Book, asked: usize, named: &[u8], slip: Slip) -> [u32; 3] {
    let set = book.sections[asked].condition_met;
    let held = book.sections_held;
    if matches!(slip, Slip::OthersMet | Slip::OthersUnmet) {
        let others: &mut [Section] = &mut book.sections[..held];
        let met = slip == Slip::OthersMet;
        others
            .iter_mut()
            .for_each(|other| other.condition_met = met);
    }
    let mut counts = [0; 3];
    for pattern in 0..1_u32 << named.len().min(10) {
        let failing = named.len() as u32 - pattern.count_ones();
        let left_out = match slip {
            Slip::OneFailsAtATime => failing > 1,
            Slip::NotAllFail => failing as usize == named.len() && failing > 0,
            _ => false,
        };
        if left_out {
            continue;
        }
        for (bit, &section) in named.iter().enumerate() {
            let met = pattern & 1 << bit != 0;
            book.sections[usize::from(section)].condition_met = met;
        }
        if slip == Slip::AskedAsSet {
            book.sections[asked].condition_met = set;
        }
        let ending = ending(&book, asked, named, slip);
        counts[ending] += 1;
    }
    counts
}

/// 0 in full, 1 in part, 2 not at all.
fn ending(book: &Book, asked: usize, named: &[u8], slip: Slip) -> usize {
    let settlement = settle(book);
    let size = book.sections[asked].position.unsigned_abs() as u32;
    let (delivered, lapsed) = (settlement.delivered[asked], settlement.lapsed[asked]);
    let fails = named.contains(&(asked as u8)) && !book.sections[asked].condition_met;
    let right = match delivered {
        lots if lots == size => 0,
        0 => 2,
        _ => 1,
    };
    match slip {
        Slip::LapsedDelivered if delivered + lapsed == size => 0,
        Slip::LapsedDelivered | Slip::LapsedInPart if lapsed > 0 => 1,
        Slip::FlatNotAtAll if size == 0 => 2,
        Slip::SomeInFull if delivered > 0 => 0,
        Slip::SomeNotAtAll if delivered < size => 2,
        Slip::OwnFailureAlone => 2 * usize::from(settlement.failing[asked] && size > 0),
        Slip::NamedFailAnyway if fails => 2,
        _ => right,
    }
}

#[test]
fn every_slip_shows_in_several_cases() {
    let cases: Vec<Case> = short_cases(&seeds(1, 96)).collect();
    let rows: Vec<String> = cases.iter().map(|case| case.prints().unwrap()).collect();
    let differing = |slip: Slip| {
        let pairs = cases.iter().zip(&rows);
        pairs
            .filter(|(case, row)| row_of(case, slip) != **row)
            .count()
    };
    assert_eq!(differing(Slip::Right), 0);
    for slip in SLIPS {
        assert!(differing(slip) >= 2, "{slip:?}: {}", differing(slip));
    }
}

#[test]
fn a_comparison_with_a_program_that_agrees_ends_well() {
    let output = compare(FAILURES, "200", "7", &folder("failures-agrees"));
    let text = String::from_utf8(output.stdout).unwrap();
    let agree = "321 of 321 cases agree\n\
        2 of 2 other numbers of arguments are turned away\ncases 321, ";
    assert!(text.starts_with(agree), "{text}");
    assert!(text.ends_with("everything was reached\n"), "{text}");
    assert!(output.status.success() && output.stderr.is_empty());
}

/// What the comparison prints of a script that must not agree.
#[cfg(unix)]
fn difference(name: &str, script: &str) -> String {
    let folder = folder(name);
    let script = script.replace("FAILURES", FAILURES);
    let program = common::programs::scripted(&folder, &script);
    let output = compare(&program, "4", "1", &folder);
    assert_eq!(output.status.code(), Some(1), "{name}");
    String::from_utf8(output.stdout).unwrap()
}

#[cfg(unix)]
#[test]
fn a_program_that_reads_a_file_otherwise_is_found_and_the_first_is_kept() {
    let text = difference("failures-cuts", "head -c 64616 | FAILURES \"$@\"");
    let first = "first that does not: 3,800 events and a byte, \"0\" \"1\" \"2\" \"3\", \
        row 1: wanted is \"refused 25\", the program has \"";
    assert!(text.contains(first), "{text}");
    let folder = Path::new(env!("CARGO_TARGET_TMPDIR")).join("failures-cuts");
    let kept = |ending: &str| std::fs::read(folder.join("failures").with_extension(ending));
    assert_eq!(kept("events").unwrap().len(), 64_617);
    assert_eq!(kept("arguments").unwrap(), b"\"0\"\n\"1\"\n\"2\"\n\"3\"\n");
    assert_eq!(kept("reference").unwrap(), b"refused 25\n");
    assert_ne!(kept("program").unwrap(), b"refused 25\n");
    assert_eq!(std::fs::read_dir(&folder).unwrap().count(), 5);
}

#[cfg(unix)]
#[test]
fn a_program_that_takes_other_numbers_of_arguments_is_found() {
    let script = "case $# in \
        0) exec FAILURES 0;; 257) FAILURES \"$@\" 2>/dev/null;; *) exec FAILURES \"$@\";; esac";
    let text = difference("failures-takes", script);
    let found = "cases agree\n\
        0 arguments are not turned away: the program printed something\n\
        257 arguments are not turned away: the program wrote nothing to standard error\n\
        0 of 2 other numbers of arguments are turned away\n";
    assert!(text.contains(found), "{text}");
    assert!(!text.contains("first that does not"), "{text}");
}

#[cfg(unix)]
#[test]
fn a_program_that_fails_or_complains_is_given_no_more() {
    for (name, script, what) in [
        (
            "failures-fails",
            "FAILURES \"$@\"; exit 3",
            "ended with a failure",
        ),
        (
            "failures-complains",
            "FAILURES \"$@\"; echo file >&2",
            "wrote to standard error",
        ),
    ] {
        let text = difference(name, script);
        let first = format!("first that does not: sizes alone, \"0\", the program {what}; ");
        assert!(text.starts_with("0 of 1 cases agree\n"), "{text}");
        assert!(text.contains(&first), "{text}");
        assert!(text.contains("\ncases 1, 0 with counts, "), "{text}");
    }
}

#[test]
fn a_comparison_with_a_program_that_cannot_be_run_fails() {
    let output = compare("./no-such-program", "3", "1", &folder("failures-missing"));
    assert_eq!(output.status.code(), Some(1));
    assert!(output.stdout.is_empty());
}

#[test]
fn a_comparison_with_bad_arguments_fails() {
    let folder = folder("failures-bad");
    for count in ["0", "-1", "", "x", "1.5", "99999999999999999999999"] {
        let output = compare(FAILURES, count, "1", &folder);
        assert_eq!(output.status.code(), Some(2), "{count:?}");
        assert!(output.stdout.is_empty());
    }
    assert_eq!(compare(FAILURES, "1", "x", &folder).status.code(), Some(2));
    let few = Command::new(COMPARE_FAILURES)
        .args([FAILURES, "1", "1"])
        .output();
    assert_eq!(few.unwrap().status.code(), Some(2));
}
