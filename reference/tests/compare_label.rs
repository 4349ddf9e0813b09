//! The comparison over the byte counts of listings, and the files it gives: wrong
//! counts and wrong programs are found.

mod common;

use common::programs::{folder, scripted};
use std::path::Path;
use std::process::{Command, Output};
use wheat_delivery::reading::label::of_file;
use wheat_delivery::reading::listing::listing;
use wheat_delivery::trial::generate::file;
use wheat_delivery::trial::hand::worked;
use wheat_delivery::trial::label::inputs;
use wheat_delivery::trial::label::reach::{Reach, View};

const LABEL: &str = env!("CARGO_BIN_EXE_label");
const LISTING: &str = env!("CARGO_BIN_EXE_listing");
const COMPARE_LABEL: &str = env!("CARGO_BIN_EXE_compare_label");

fn compare(label: &str, wheat: &str, count: &str, seed: &str, folder: &Path) -> Output {
    let mut command = Command::new(COMPARE_LABEL);
    command.args([label, wheat, count, seed]).arg(folder);
    command.output().unwrap()
}

fn seeds(first: u64, count: u64) -> Vec<u64> {
    (0..count).map(|i| first.wrapping_add(i)).collect()
}

fn reach_of(files: impl IntoIterator<Item = Vec<u8>>) -> Reach {
    let mut reach = Reach::default();
    let views = files.into_iter().map(|file| View::new(&file));
    views.for_each(|view| reach.add(&view));
    reach
}

#[test]
fn the_same_seeds_give_the_same_inputs() {
    let seeds = seeds(u64::MAX - 20, 40);
    let named = || inputs(&seeds).map(|input| (input.name, input.bytes));
    assert!(named().eq(named()));
}

#[test]
fn the_files_of_the_seeds_are_those_of_the_other_comparison() {
    let seeds = seeds(7, 48);
    let given: Vec<Vec<u8>> = inputs(&seeds).map(|input| input.bytes).collect();
    let files: Vec<Vec<u8>> = seeds.into_iter().map(file).collect();
    assert!(given.ends_with(&files));
}

#[test]
fn the_files_of_1000_seeds_reach_everything_and_few_do_not() {
    for first in [0, 1_234_567, u64::MAX - 500] {
        let seeds = seeds(first, 1_000);
        let reach = reach_of(inputs(&seeds).map(|input| input.bytes));
        assert_eq!(reach.missing(), [""; 0], "{reach}");
    }
    let few = reach_of([worked().file(), vec![]]);
    let missing = few.missing();
    for name in [
        "no line",
        "lines with 3 digits",
        "lapsed lots with 2 digits",
    ] {
        assert!(missing.iter().any(|missing| missing == name), "{name}");
    }
    for name in ["refused", "lines with 1 digit", "counts with 3 digits"] {
        assert!(missing.iter().all(|missing| missing != name), "{name}");
    }
    let said = few.to_string();
    assert!(said.contains("not reached: no section; "), "{said}");
}

/// What a program with a slip counts, given the rows that are printed.
type Slip = fn(&str) -> usize;

/// The first row of a listing, a line, a section, or the row of a refused file.
#[derive(PartialEq)]
enum Kind {
    First,
    Line,
    Section,
    Refused,
}

/// The bytes of the rows with the fields of such rows put otherwise.
fn with(rows: &str, such: Kind, put: fn(&mut Vec<String>)) -> usize {
    let lines = rows.lines().next().unwrap().strip_prefix("register ");
    let lines: Option<usize> = lines.map(|lines| lines.parse().unwrap());
    let bytes = |(i, row): (usize, &str)| {
        let kind = match lines {
            None => Kind::Refused,
            Some(_) if i == 0 => Kind::First,
            Some(lines) if i <= lines => Kind::Line,
            Some(_) => Kind::Section,
        };
        let mut fields: Vec<String> = row.split(' ').map(str::to_string).collect();
        if kind == such {
            put(&mut fields);
        }
        fields.join(" ").len() + 1
    };
    rows.lines().enumerate().map(bytes).sum()
}

/// The bytes of the rows less one for each number like this.
fn less_one(rows: &str, such: fn(&str) -> bool) -> usize {
    let fields = rows.split([' ', '\n']).filter(|field| such(field));
    rows.len() - fields.count()
}

fn is_power_of_ten(field: &str) -> bool {
    let noughts = field.strip_prefix('1');
    noughts.is_some_and(|noughts| !noughts.is_empty() && noughts.bytes().all(|b| b == b'0'))
}

const SLIPS: [(&str, Slip); 20] = [
    ("no sign", |rows| rows.replace(" -", " ").len()),
    ("no line end", |rows| rows.len() - rows.lines().count()),
    ("no last line end", |rows| rows.len() - 1),
    ("no space", |rows| rows.replace(' ', "").len()),
    ("no digit of nought", |rows| {
        less_one(rows, |field| field == "0")
    }),
    ("a digit less of powers of ten", |rows| {
        less_one(rows, is_power_of_ten)
    }),
    ("one digit of the line count", |rows| {
        with(rows, Kind::First, |fields| fields[1].truncate(1))
    }),
    ("two digits of the line count", |rows| {
        with(rows, Kind::First, |fields| fields[1].truncate(2))
    }),
    ("one digit of elevators", |rows| {
        with(rows, Kind::Line, |fields| fields[1].truncate(1))
    }),
    ("tonnes as lots", |rows| {
        with(rows, Kind::Line, |fields| fields[4] = fields[3].clone())
    }),
    ("lots as tonnes", |rows| {
        with(rows, Kind::Line, |fields| fields[3] = fields[4].clone())
    }),
    ("tonnes of 32 bits", |rows| {
        with(rows, Kind::Line, |fields| fields[4].truncate(9))
    }),
    ("no lapsed lots", |rows| {
        with(rows, Kind::Section, |fields| drop(fields.remove(3)))
    }),
    ("delivered lots for all three", |rows| {
        with(rows, Kind::Section, |fields| {
            (fields[2], fields[3]) = (fields[1].clone(), fields[1].clone())
        })
    }),
    ("six digits of lots", |rows| {
        with(rows, Kind::Section, |fields| {
            fields[1..4].iter_mut().for_each(|lots| lots.truncate(6))
        })
    }),
    ("sums of 32 bits", |rows| {
        with(rows, Kind::Section, |fields| fields[4].truncate(10))
    }),
    ("sixteen digits of sums", |rows| {
        with(rows, Kind::Section, |fields| {
            let sign = usize::from(fields[4].starts_with('-'));
            fields[4].truncate(16 + sign)
        })
    }),
    ("one digit of the number", |rows| {
        with(rows, Kind::Refused, |fields| fields[1].truncate(1))
    }),
    ("one digit of the place", |rows| {
        with(rows, Kind::Refused, |fields| fields[2].truncate(1))
    }),
    ("no refused row", |rows| match rows.starts_with("refused") {
        true => 0,
        false => rows.len(),
    }),
];

#[test]
fn every_slip_in_the_count_shows_in_some_file() {
    let files: Vec<Vec<u8>> = inputs(&seeds(1, 160)).map(|input| input.bytes).collect();
    let differing = |slip: Slip| {
        let differs = |file: &&Vec<u8>| slip(&listing(file)) != of_file(file);
        files.iter().filter(differs).count()
    };
    assert_eq!(differing(str::len), 0);
    for (name, slip) in SLIPS {
        assert!(differing(slip) > 0, "{name}");
    }
}

#[test]
fn a_comparison_with_programs_that_agree_ends_well() {
    let output = compare(LABEL, LISTING, "1000", "7", &folder("label-agrees"));
    let text = String::from_utf8(output.stdout).unwrap();
    let agree = "1076 of 1076 files agree\nfiles 1076, ";
    assert!(text.starts_with(agree), "{text}");
    assert!(text.ends_with("everything was reached\n"), "{text}");
    assert!(output.status.success() && output.stderr.is_empty());
}

#[test]
fn few_files_do_not_reach_everything_and_may_agree() {
    let output = compare(LABEL, LISTING, "1", "1", &folder("label-few"));
    let text = String::from_utf8(output.stdout).unwrap();
    assert!(text.contains("not reached: "), "{text}");
    assert!(output.status.success());
}

/// What the comparison says of the first file that does not agree, where a script
/// counts or, if it does not, where it prints. It must fail.
#[cfg(unix)]
fn first(name: &str, counts: bool, script: &str) -> String {
    let folder = folder(name);
    let script = script.replace("LABEL", LABEL).replace("LISTING", LISTING);
    let script = script.replace("COUNTED", "wc -c | tr -d ' '");
    let program = scripted(&folder, &script);
    let output = match counts {
        true => compare(&program, LISTING, "4", "1", &folder),
        false => compare(LABEL, &program, "4", "1", &folder),
    };
    assert_eq!(output.status.code(), Some(1), "{name}");
    let text = String::from_utf8(output.stdout).unwrap();
    let found = text.split("first that does not: ").nth(1);
    found.unwrap_or("none").to_string()
}

#[cfg(unix)]
#[test]
fn a_program_that_counts_otherwise_is_found() {
    for (name, script, found) in [
        (
            "label-sign",
            "LISTING | tr -d - | COUNTED",
            "worked.events, LABEL, row 1: wanted is \"169\", the program has \"167\", \
             and WHEAT printed 169 bytes; ",
        ),
        (
            "label-refused",
            "LISTING | sed 's/^refused.*/&./' | COUNTED",
            "sizes alone, LABEL, row 1: wanted is \"13\", the program has \"14\", ",
        ),
        (
            "label-place",
            "LISTING | sed 's/^\\(refused [0-9]* [0-9]\\).*/\\1/' | COUNTED",
            "refused.events, LABEL, row 1: wanted is \"14\", the program has \"13\", ",
        ),
        (
            "label-tonnes",
            "LISTING | awk 'NR == 1 { n = $2 } NR > 1 && NR <= n + 1 { $5 = $4 } { print }' | COUNTED",
            "worked.events, LABEL, row 1: wanted is \"169\", the program has \"166\", ",
        ),
        (
            "label-lapsed",
            "LISTING | awk 'NR == 1 { n = $2 } NR > n + 1 { $4 = 0 } { print }' | COUNTED",
            "lots: 10, LABEL, row 1: wanted is \"197\", the program has \"195\", ",
        ),
    ] {
        let said = first(name, true, script);
        assert!(said.starts_with(found), "{said}");
    }
}

#[cfg(unix)]
#[test]
fn a_program_that_prints_or_reads_otherwise_is_found() {
    for (name, script, found) in [
        (
            "label-end",
            "printf %s \"$(LABEL)\"",
            "sizes alone, LABEL, row 2: wanted is \"\", the program has no row, ",
        ),
        (
            "label-space",
            "LABEL | sed 's/^/ /'",
            "sizes alone, LABEL, row 1: wanted is \"13\", the program has \" 13\", ",
        ),
        (
            "label-cuts",
            "head -c 64616 | LABEL",
            "3,800 events and a byte, LABEL, row 1: wanted is \"13\", ",
        ),
        (
            "label-piece",
            "dd bs=70000 count=1 2>/dev/null | LABEL",
            "3,800 events in pieces, LABEL, row 1: wanted is \"14443\", ",
        ),
    ] {
        let said = first(name, true, script);
        assert!(said.starts_with(found), "{said}");
    }
}

#[cfg(unix)]
#[test]
fn a_listing_of_other_bytes_is_found_and_kept() {
    let said = first("label-listing", false, "LISTING | tr -d -");
    let found = "worked.events, WHEAT, the program printed 167 bytes, wanted are 169; kept: ";
    assert!(said.starts_with(found), "{said}");
    let folder = Path::new(env!("CARGO_TARGET_TMPDIR")).join("label-listing");
    let kept = |ending: &str| std::fs::read(folder.join("label").with_extension(ending));
    assert_eq!(kept("events").unwrap(), worked().file());
    assert_eq!(kept("reference").unwrap(), worked().prints.as_bytes());
    let without = worked().prints.replace('-', "");
    assert_eq!(kept("program").unwrap(), without.as_bytes());
    assert_eq!(std::fs::read_dir(&folder).unwrap().count(), 4);
}

#[cfg(unix)]
#[test]
fn a_program_that_fails_or_complains_is_given_no_more() {
    for (name, script, what) in [
        ("label-fails", "PROGRAM; exit 3", "ended with a failure"),
        (
            "label-complains",
            "PROGRAM; echo file >&2",
            "wrote to standard error",
        ),
    ] {
        let counts = first(name, true, &script.replace("PROGRAM", "LABEL"));
        let said = format!("sizes alone, LABEL, the program {what}, and WHEAT printed 13 bytes; ");
        assert!(counts.starts_with(&said), "{counts}");
        assert!(counts.contains("\nfiles 1, "), "{counts}");
        let prints = first(name, false, &script.replace("PROGRAM", "LISTING"));
        let said = format!("sizes alone, WHEAT, the program {what}; ");
        assert!(prints.starts_with(&said), "{prints}");
        assert!(prints.contains("\nfiles 1, "), "{prints}");
    }
}

#[test]
fn a_comparison_with_a_program_that_cannot_be_run_fails() {
    let none = "./no-such-program";
    for (label, wheat) in [(none, LISTING), (LABEL, none)] {
        let output = compare(label, wheat, "3", "1", &folder("label-missing"));
        assert_eq!(output.status.code(), Some(1));
        assert!(output.stdout.is_empty());
    }
}

#[test]
fn a_comparison_with_bad_arguments_fails() {
    let folder = folder("label-bad");
    for count in ["0", "-1", "", "x", "1.5", "99999999999999999999999"] {
        let output = compare(LABEL, LISTING, count, "1", &folder);
        assert_eq!(output.status.code(), Some(2), "{count:?}");
        assert!(output.stdout.is_empty());
    }
    let output = compare(LABEL, LISTING, "1", "x", &folder);
    assert_eq!(output.status.code(), Some(2));
    let few = Command::new(COMPARE_LABEL).args([LABEL, "1", "1"]).output();
    assert_eq!(few.unwrap().status.code(), Some(2));
}
