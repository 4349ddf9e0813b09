//! The comparison over explanations: programs that agree, wrong ones, and bad
//! arguments.

mod common;

use common::programs::{folder, given, scripted};
use std::path::Path;
use std::process::{Command, Output};
use wheat_delivery::reading::explain::explain;
use wheat_delivery::trial::hand::worked;

const EXPLAIN: &str = env!("CARGO_BIN_EXE_explain");
const LISTING: &str = env!("CARGO_BIN_EXE_listing");
const COMPARE_EXPLAIN: &str = env!("CARGO_BIN_EXE_compare_explain");

fn compare(program: &str, wheat: &str, count: &str, seed: &str, folder: &Path) -> Output {
    let mut command = Command::new(COMPARE_EXPLAIN);
    command.args([program, wheat, count, seed]).arg(folder);
    command.output().unwrap()
}

fn said(output: Output) -> String {
    String::from_utf8(output.stdout).unwrap()
}

#[test]
fn the_program_prints_the_explanation_of_the_file_on_standard_input() {
    for file in [worked().file(), vec![]] {
        let output = given(EXPLAIN, &[], &file);
        assert_eq!(output.stdout, explain(&file));
        assert!(output.status.success() && output.stderr.is_empty());
    }
}

#[test]
fn a_comparison_with_programs_that_agree_ends_well() {
    let output = compare(EXPLAIN, LISTING, "4", "7", &folder("explain-agrees"));
    let success = output.status.success() && output.stderr.is_empty();
    let text = said(output);
    let (agreeing, others) = text.split_once(" of ").unwrap();
    let start = format!("{agreeing} files agree\nfiles {agreeing}, rows ");
    assert!(others.starts_with(&start), "{text}");
    assert!(text.ends_with("everything was reached\n"), "{text}");
    assert!(success);
}

/// What the comparison says of the files that do not agree, with a script in the
/// place of one program. It must fail.
#[cfg(unix)]
fn differences(name: &str, explains: bool, script: &str) -> String {
    let folder = folder(name);
    let script = script
        .replace("EXPLAIN", EXPLAIN)
        .replace("LISTING", LISTING);
    let program = scripted(&folder, &script);
    let output = match explains {
        true => compare(&program, LISTING, "1", "1", &folder),
        false => compare(EXPLAIN, &program, "1", "1", &folder),
    };
    assert_eq!(output.status.code(), Some(1), "{name}");
    said(output)
}

#[cfg(unix)]
#[test]
fn a_changed_number_and_a_row_left_out_are_found_and_kept() {
    let text = differences(
        "explain-gives",
        true,
        "EXPLAIN | sed 's/gives 3;/gives 4;/'",
    );
    let found = "does not agree: worked.events, row 81: wanted is \
        \"    B000001 of code 2 has 6 lots and gives 3; 0 left of D, 3 of the net of code 2\", \
        the program has \
        \"    B000001 of code 2 has 6 lots and gives 4; 0 left of D, 3 of the net of code 2\"; \
        by its text, the steps terminate 4 lots of B000001, and WHEAT has 3; kept: ";
    assert!(text.contains(found), "{text}");
    let folder = Path::new(env!("CARGO_TARGET_TMPDIR")).join("explain-gives");
    let kept = |ending: &str| std::fs::read(folder.join("explain").with_extension(ending));
    assert_eq!(kept("events").unwrap(), worked().file());
    assert_eq!(kept("reference").unwrap(), explain(&worked().file()));
    assert_ne!(kept("program").unwrap(), explain(&worked().file()));
    let text = differences("explain-row", true, "EXPLAIN | grep -v ' is split here, '");
    let found = "does not agree: worked.events, row 89: wanted is \
        \"    A000001 is split here, where the net is reached\", the program has \
        \"    A000002 has 2 lots: all inside\"; kept: ";
    assert!(text.contains(found), "{text}");
}

#[cfg(unix)]
#[test]
fn another_listing_is_found() {
    let text = differences("explain-wheat", false, "LISTING | sed 's/ 3 0 7/ 2 1 7/'");
    let found = "does not agree: worked.events, by its text, the listing is not WHEAT's; kept: ";
    assert!(text.contains(found), "{text}");
}

#[cfg(unix)]
#[test]
fn a_program_that_fails_or_complains_is_given_no_more() {
    for (name, script, what) in [
        ("explain-fails", "PROGRAM; exit 3", "ended with a failure"),
        (
            "explain-complains",
            "PROGRAM; echo file >&2",
            "wrote to standard error",
        ),
    ] {
        for (explains, own, called) in [(true, "EXPLAIN", "PROGRAM"), (false, "LISTING", "WHEAT")] {
            let text = differences(name, explains, &script.replace("PROGRAM", own));
            let found =
                format!("does not agree: sizes alone, {called}, the program {what}; kept: ");
            assert!(text.contains(&found), "{text}");
            assert!(text.starts_with("0 of 1 files agree\n"), "{text}");
        }
    }
}

#[test]
fn a_comparison_with_a_program_that_cannot_be_run_fails() {
    let none = "./no-such-program";
    for (program, wheat) in [(none, LISTING), (EXPLAIN, none)] {
        let output = compare(program, wheat, "3", "1", &folder("explain-missing"));
        assert_eq!(output.status.code(), Some(1));
        assert!(output.stdout.is_empty());
    }
}

#[test]
fn a_comparison_with_bad_arguments_fails() {
    let folder = folder("explain-bad");
    for (count, seed) in [("0", "1"), ("-1", "1"), ("x", "1"), ("", "1"), ("1", "x")] {
        let output = compare(EXPLAIN, LISTING, count, seed, &folder);
        assert_eq!(output.status.code(), Some(2), "{count:?}");
        assert!(output.stdout.is_empty());
    }
    let few = Command::new(COMPARE_EXPLAIN)
        .args([EXPLAIN, "1", "1"])
        .output();
    assert_eq!(few.unwrap().status.code(), Some(2));
}
