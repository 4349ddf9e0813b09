//! The programs: what they print and how they end.

mod common;

use common::expiry_rows::{RIGHT, SLIPS, listed};
use common::programs::{compared, difference, folder, given};
use std::path::Path;
use std::process::{Command, Output};
use wheat_delivery::reading::listing::listing;
use wheat_delivery::trial::examples::examples;
use wheat_delivery::trial::generate;
use wheat_delivery::trial::hand::worked;

const LISTING: &str = env!("CARGO_BIN_EXE_listing");
const CALLS: &str = env!("CARGO_BIN_EXE_calls");
const COMPARE: &str = env!("CARGO_BIN_EXE_compare");
const CASES: &str = env!("CARGO_BIN_EXE_cases");
const TENTHS: &str = env!("CARGO_BIN_EXE_tenths");
const GENERATE: &str = env!("CARGO_BIN_EXE_generate");
const CHECK: &str = env!("CARGO_BIN_EXE_check");

fn list(file: &[u8]) -> Output {
    given(LISTING, &[], file)
}

fn compare(program: &str, count: &str, seed: &str, folder: &Path) -> Output {
    compared(COMPARE, program, count, seed, folder)
}

#[test]
fn the_program_prints_the_listing_of_the_file_on_standard_input() {
    let output = list(&worked().file());
    assert_eq!(output.stdout, worked().prints.as_bytes());
    assert!(output.status.success() && output.stderr.is_empty());
}

#[test]
fn a_refused_file_is_a_normal_answer() {
    let output = list(b"");
    assert_eq!(output.stdout, b"refused 25 0\n");
    assert!(output.status.success() && output.stderr.is_empty());
}

#[test]
fn the_program_and_the_library_print_the_same() {
    for seed in 0..64 {
        let file = generate::file(seed);
        assert_eq!(list(&file).stdout, listing(&file).as_bytes());
    }
}

#[test]
fn a_comparison_with_a_program_that_agrees_ends_well() {
    let output = compare(LISTING, "48", "7", &folder("agrees"));
    assert_eq!(output.stdout, b"48 of 48 files agree\n");
    assert!(output.status.success());
}

#[cfg(unix)]
#[test]
fn a_comparison_with_a_program_that_differs_keeps_the_first_file_and_fails() {
    let folder = folder("differs");
    let output = compare("/bin/cat", "20", "5", &folder);
    let text = String::from_utf8(output.stdout).unwrap();
    assert!(
        text.starts_with("0 of 20 files agree\nfirst that does not: seed 5 "),
        "{text}"
    );
    assert!(!output.status.success());
    assert_eq!(
        std::fs::read(folder.join("5.events")).unwrap(),
        generate::file(5)
    );
    assert_eq!(
        std::fs::read(folder.join("5.program")).unwrap(),
        generate::file(5)
    );
    let listed = listing(&generate::file(5));
    assert_eq!(
        std::fs::read(folder.join("5.reference")).unwrap(),
        listed.as_bytes()
    );
    assert_eq!(std::fs::read_dir(&folder).unwrap().count(), 3);
}

#[test]
fn every_slip_in_what_is_removed_shows_in_several_files() {
    let files: Vec<Vec<u8>> = (1..=160).map(generate::file).collect();
    let differing = |slip| {
        let differs = |file: &&Vec<u8>| listed(file, slip) != listing(file);
        files.iter().filter(differs).count()
    };
    assert_eq!(differing(RIGHT), 0);
    for (name, slip) in SLIPS {
        assert!(differing(slip) >= 3, "{name}: {}", differing(slip));
    }
}

/// What the comparison says of the first file that a script lists otherwise.
#[cfg(unix)]
fn first_listed_otherwise(name: &str, script: &str) -> String {
    let script = script.replace("LISTING", LISTING).replace("CALLS", CALLS);
    let text = difference(COMPARE, name, &script);
    let found = text.split("first that does not: ").nth(1);
    found.unwrap_or("none").to_string()
}

#[cfg(unix)]
#[test]
fn programs_that_forget_what_was_removed_are_found() {
    // The rows of sections stand after the lines, which the first row counts.
    let sections = |change: &str| {
        format!("LISTING | awk 'NR == 1 {{ n = $2 }} NR > n + 1 {{ {change} }} {{ print }}'")
    };
    let delivered = first_listed_otherwise("stay-delivered", &sections("$2 += $4"));
    let both = "wanted is \"HG6AQCC 2248 0 1395 294053\", \
        the program has \"HG6AQCC 3643 0 1395 294053\"; ";
    assert!(
        delivered.starts_with("seed 4 (Medium), row 36: "),
        "{delivered}"
    );
    assert!(delivered.contains(both), "{delivered}");
    let change = "$0 = $1 \" \" $2 \" \" $3 \" \" $5";
    let no_column = first_listed_otherwise("no-column", &sections(change));
    assert!(
        no_column.starts_with("seed 1 (Medium), row 70: "),
        "{no_column}"
    );
    let formed = r#"
cat > "$0.file"
formed=$(CALLS < "$0.file" | sed -n 's/^expiry [0-9]* \([0-9]*\) .*/\1/p')
LISTING < "$0.file" | sed "1s/^register .*/register $formed/""#;
    let formed = first_listed_otherwise("counts-formed", formed);
    let both = "row 1: wanted is \"register 26\", the program has \"register 28\"; ";
    assert!(formed.contains(both), "{formed}");
}

#[test]
fn a_comparison_with_a_program_that_cannot_be_run_fails() {
    let output = compare("./no-such-program", "3", "1", &folder("missing"));
    assert!(!output.status.success() && output.stdout.is_empty());
    let unrunnable = concat!(env!("CARGO_MANIFEST_DIR"), "/Cargo.toml");
    assert!(
        !compare(unrunnable, "3", "1", &folder("missing"))
            .status
            .success()
    );
}

#[test]
fn a_comparison_with_a_bad_count_or_seed_fails() {
    let folder = folder("bad");
    for count in ["0", "-1", "", "x", "1.5", "99999999999999999999999"] {
        let output = compare(LISTING, count, "1", &folder);
        assert!(
            !output.status.success() && output.stdout.is_empty(),
            "{count:?}"
        );
    }
    assert!(!compare(LISTING, "1", "x", &folder).status.success());
}

#[test]
fn the_claims_without_a_star_hold_of_this_program_and_not_of_another() {
    let cases = |program: &str, name: &str| {
        let arguments = [program.into(), folder(name).into_os_string()];
        Command::new(CASES).args(arguments).output().unwrap()
    };
    let output = cases(LISTING, "holds");
    assert_eq!(output.stdout, b"7 of 7 claims hold\n");
    assert!(output.status.success());
    let output = cases("/bin/cat", "does-not");
    let text = String::from_utf8(output.stdout).unwrap();
    let first = "0 of 7 claims hold\ndoes not hold: W 100, R 1 opens: row 1: ";
    assert!(text.starts_with(first), "{text}");
    assert!(!output.status.success());
    assert!(!cases("./no-such-program", "missing").status.success());
}

#[test]
fn another_program_does_not_print_the_tenths() {
    let tenths = |program: &str, name: &str| {
        let arguments = [program.into(), folder(name).into_os_string()];
        Command::new(TENTHS).args(arguments).output().unwrap()
    };
    let output = tenths("/bin/cat", "no-tenths");
    let text = String::from_utf8(output.stdout).unwrap();
    assert!(
        text.starts_with("the tenths do not agree: row 1: "),
        "{text}"
    );
    assert!(!output.status.success());
    assert!(!tenths("./no-such-program", "no-program").status.success());
}

#[test]
fn the_generator_writes_the_examples_and_files_of_a_size() {
    let folder = folder("sizes");
    std::fs::create_dir_all(&folder).unwrap();
    let generate = |arguments: &[&str]| {
        let mut command = Command::new(GENERATE);
        command.args(arguments).current_dir(&folder);
        command.output().unwrap().status.success()
    };
    assert!(generate(&["--examples", "."]));
    for (name, bytes) in examples() {
        assert_eq!(std::fs::read(folder.join(name)).unwrap(), bytes);
    }
    assert!(generate(&["--sized", "16", "475", "file"]));
    assert_eq!(
        std::fs::read(folder.join("file")).unwrap(),
        generate::sized(16, 475).unwrap()
    );
    assert!(generate(&["--trading", "64", "3800", "file"]));
    assert_eq!(
        std::fs::read(folder.join("file")).unwrap(),
        generate::trading(64, 3_800).unwrap()
    );
    assert!(generate(&["--trading", "0", "0", "file"]));
    assert!(!generate(&["--trading", "0", "1", "file"]));
    assert!(!generate(&["--trading", "1", "2", "file"]));
    assert!(!generate(&["--trading", "129", "3800", "file"]));
    assert!(!generate(&["--sized", "15", "475", "file"]));
    assert!(!generate(&["--sized", "128", "475", "file"]));
    assert!(!generate(&["--sized", "16", "3801", "file"]));
}

#[test]
fn the_generator_writes_its_files_into_a_folder() {
    let folder = folder("generated");
    let arguments = ["5", "100"];
    let status = Command::new(GENERATE)
        .args(arguments)
        .arg(&folder)
        .status()
        .unwrap();
    assert!(status.success());
    for seed in 100..105 {
        let path = folder.join(format!("{seed}.events"));
        assert_eq!(std::fs::read(path).unwrap(), generate::file(seed));
    }
}

#[test]
fn a_report_over_few_files_says_what_was_not_reached_and_fails() {
    let output = Command::new(GENERATE)
        .args(["--report", "4", "0"])
        .output()
        .unwrap();
    let text = String::from_utf8(output.stdout).unwrap();
    assert!(
        text.contains("files 4,") && text.contains("not reached: "),
        "{text}"
    );
    assert!(!output.status.success());
}

#[test]
fn a_check_over_generated_files_ends_well() {
    let output = Command::new(CHECK).args(["64", "0"]).output().unwrap();
    assert!(output.stdout.starts_with(b"64 files hold in "));
    assert!(output.status.success());
    assert!(
        !Command::new(CHECK)
            .arg("x")
            .output()
            .unwrap()
            .status
            .success()
    );
}
