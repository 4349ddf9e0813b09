//! The comparison over the operands by column, and the files it gives.

mod common;

use common::programs::{compared, folder};
use std::path::{Path, PathBuf};
use std::process::Output;
use wheat_delivery::reading::columns::printed;
use wheat_delivery::reading::file::length;
use wheat_delivery::trial::columns::reach::Reach;
use wheat_delivery::trial::columns::{inputs, random_bytes};

const COLUMNS: &str = env!("CARGO_BIN_EXE_columns");
const COMPARE_COLUMNS: &str = env!("CARGO_BIN_EXE_compare_columns");

fn compare(program: &str, count: &str, seed: &str, folder: &Path) -> Output {
    compared(COMPARE_COLUMNS, program, count, seed, folder)
}

#[cfg(unix)]
fn difference(name: &str, script: &str) -> String {
    let script = script.replace("COLUMNS", COLUMNS);
    common::programs::difference(COMPARE_COLUMNS, name, &script)
}

fn reach_of<'a>(files: impl IntoIterator<Item = &'a [u8]>) -> Reach {
    let mut reach = Reach::default();
    files.into_iter().for_each(|file| reach.add(file));
    reach
}

#[test]
fn the_same_seeds_give_the_same_inputs() {
    let seeds = [0, 1, u64::MAX];
    let named = || inputs(&seeds).map(|input| (input.name, input.bytes));
    assert!(named().eq(named()));
}

#[test]
fn any_seed_reaches_everything_and_a_lone_file_does_not() {
    for seed in [0, 1_234_567, u64::MAX] {
        let given: Vec<_> = inputs(&[seed]).collect();
        let reach = reach_of(given.iter().map(|input| &input.bytes[..]));
        assert_eq!(reach.missing(), [""; 0], "{reach}");
    }
    let few = reach_of([&random_bytes(1, length(1))[..], &[]]);
    let missing = few.missing();
    assert!(
        [
            "no event",
            "3,800 events",
            "one byte too many",
            "3,801 events"
        ]
        .iter()
        .all(|name| missing.contains(name))
    );
    assert!(
        [
            "one event",
            "sizes that say another n",
            "no byte",
            "refused"
        ]
        .iter()
        .all(|name| !missing.contains(name))
    );
    assert!(few.to_string().contains("not reached: no event; "), "{few}");
}

#[test]
fn a_comparison_with_a_program_that_agrees_ends_well() {
    let output = compare(COLUMNS, "48", "7", &folder("columns-agrees"));
    let text = String::from_utf8(output.stdout).unwrap();
    let agree = "233 of 233 files agree\n4 of 4 other arguments are turned away\nfiles 233, ";
    assert!(text.starts_with(agree), "{text}");
    assert!(text.ends_with("everything was reached\n"), "{text}");
    assert!(output.status.success() && output.stderr.is_empty());
}

#[cfg(unix)]
#[test]
fn a_program_that_prints_its_input_differs_and_the_first_is_kept() {
    let folder = folder("columns-cat");
    let output = compare("/bin/cat", "3", "1", &folder);
    let text = String::from_utf8(output.stdout).unwrap();
    let first = "first that does not: 0 random bytes, turned, byte 0: \
        wanted 114 (11 bytes), printed no byte (0 bytes); kept: ";
    assert!(text.contains(first), "{text}");
    assert_eq!(output.status.code(), Some(1));
    let kept = |ending: &str| std::fs::read(folder.join("columns").with_extension(ending));
    assert_eq!(kept("events").unwrap(), b"");
    assert_eq!(kept("reference").unwrap(), b"refused 25\n");
    assert_eq!(kept("program").unwrap(), b"");
    assert_eq!(std::fs::read_dir(&folder).unwrap().count(), 3);
}

/// A program that only ever turns differs first where it should turn back what it
/// turned, of two events; it is that input that is kept.
#[cfg(unix)]
#[test]
fn a_program_that_does_not_turn_back_is_found() {
    let text = difference("columns-only", "COLUMNS");
    let first = "first that does not: 50 random bytes, turned, turned back, byte 19: ";
    assert!(text.contains(first), "{text}");
    let kept = PathBuf::from(env!("CARGO_TARGET_TMPDIR")).join("columns-only/columns.events");
    let turned = printed(false, &random_bytes(50, 50));
    assert_eq!(std::fs::read(kept).unwrap(), turned);
    let back = difference("columns-back", "COLUMNS back");
    assert!(
        back.contains(": 50 random bytes, turned, byte 19: "),
        "{back}"
    );
}

#[cfg(unix)]
#[test]
fn a_program_that_reads_judges_or_refuses_otherwise_is_found() {
    let first = |name: &str, script: &str| {
        let text = difference(name, script);
        let found = text.split("first that does not: ").nth(1);
        found.unwrap_or("none").to_string()
    };
    let cuts = first("columns-cuts", "head -c 64616 | COLUMNS \"$@\"");
    assert!(
        cuts.starts_with("64617 random bytes, turned, byte 0: "),
        "{cuts}"
    );
    let piece = "dd bs=70000 count=1 2>/dev/null | COLUMNS \"$@\"";
    let piece = first("columns-piece", piece);
    assert!(
        piece.starts_with("64616 random bytes in pieces, turned, byte 0: "),
        "{piece}"
    );
    let place = first(
        "columns-place",
        "COLUMNS \"$@\" | sed 's/^refused 25$/& 0/'",
    );
    assert!(
        place.starts_with("0 random bytes, turned, byte 10: wanted 10 "),
        "{place}"
    );
    let judging = "cat > \"$0.input\"\n\
        n=$(od -An -tu4 -N4 \"$0.input\" | tr -d ' ')\n\
        if [ \"${n:-0}\" -gt 3800 ]; then echo refused 25; exit; fi\n\
        COLUMNS \"$@\" < \"$0.input\"";
    let judging = first("columns-judging", judging);
    assert!(
        judging.starts_with("16 random bytes, turned, byte 0: "),
        "{judging}"
    );
}

#[cfg(unix)]
#[test]
fn a_program_that_fails_or_complains_is_given_no_more() {
    for (name, script, what) in [
        (
            "columns-fails",
            "COLUMNS \"$@\"; exit 3",
            "ended with a failure",
        ),
        (
            "columns-complains",
            "COLUMNS \"$@\"; echo file >&2",
            "wrote to standard error",
        ),
    ] {
        let text = difference(name, script);
        let first = format!("first that does not: 0 random bytes, turned, the program {what}; ");
        assert!(text.starts_with("0 of 1 files agree\n"), "{text}");
        assert!(text.contains(&first), "{text}");
    }
}

#[cfg(unix)]
#[test]
fn a_program_that_takes_other_arguments_is_found() {
    let takes = "case $# in 0) exec COLUMNS;; *) exec COLUMNS back;; esac";
    let silent = "COLUMNS \"$@\" 2>/dev/null";
    let one = "COLUMNS $1";
    for (name, script, away, what) in [
        (
            "columns-takes",
            takes,
            0,
            "[\"forth\"]: the program printed something",
        ),
        (
            "columns-silent",
            silent,
            0,
            "[\"forth\"]: the program wrote nothing to standard error",
        ),
        (
            "columns-one",
            one,
            3,
            "[\"back\", \"back\"]: the program printed something",
        ),
    ] {
        let text = difference(name, script);
        let found = format!(
            "files agree\n{away} of 4 other arguments are turned away\nfirst that are not: {what}\n"
        );
        assert!(text.contains(&found), "{text}");
    }
}

#[test]
fn a_comparison_with_a_program_that_cannot_be_run_fails() {
    let output = compare("./no-such-program", "3", "1", &folder("columns-missing"));
    assert_eq!(output.status.code(), Some(1));
    assert!(output.stdout.is_empty());
}

#[test]
fn a_comparison_with_a_bad_count_or_seed_fails() {
    let folder = folder("columns-bad");
    for count in ["0", "-1", "", "x", "1.5", "99999999999999999999999"] {
        let output = compare(COLUMNS, count, "1", &folder);
        assert_eq!(output.status.code(), Some(2), "{count:?}");
        assert!(output.stdout.is_empty());
    }
    assert_eq!(compare(COLUMNS, "1", "x", &folder).status.code(), Some(2));
}
