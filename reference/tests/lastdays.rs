//! The rows for the program `lastday`, and the comparison over them.

mod common;

use common::programs::{compared, folder};
use std::path::{Path, PathBuf};
use std::process::Output;
use wheat_delivery::reading::rows::printed;
use wheat_delivery::trial::rows::reach::Reach;
use wheat_delivery::trial::rows::row;

const LASTDAY: &str = env!("CARGO_BIN_EXE_lastday");
const LASTDAYS: &str = env!("CARGO_BIN_EXE_lastdays");

fn lastdays(program: &str, count: &str, seed: &str, folder: &Path) -> Output {
    compared(LASTDAYS, program, count, seed, folder)
}

#[cfg(unix)]
fn difference(name: &str, script: &str) -> String {
    common::programs::difference(LASTDAYS, name, &script.replace("LASTDAY", LASTDAY))
}

fn rows(seed: u64, count: u64) -> Vec<Vec<u8>> {
    (0..count).map(|i| row(seed.wrapping_add(i))).collect()
}

#[test]
fn the_same_seed_gives_the_same_row() {
    assert_eq!(rows(0, 400), rows(0, 400));
    assert_eq!(rows(u64::MAX, 1), rows(u64::MAX, 1));
    assert!((0..400).all(|seed| !row(seed).contains(&10)));
}

#[test]
fn the_rows_of_2_000_seeds_reach_everything() {
    for seed in [0, 1_234_567, u64::MAX - 999] {
        let reach = Reach::of(&rows(seed, 2_000));
        assert_eq!(reach.missing(), [""; 0], "{reach}");
    }
}

#[test]
fn a_comparison_with_a_program_that_agrees_ends_well() {
    let output = lastdays(LASTDAY, "2000", "5", &folder("lastdays-agrees"));
    let text = String::from_utf8(output.stdout).unwrap();
    assert!(text.contains(" rows agree\nrows 2000, "), "{text}");
    assert!(text.ends_with("everything was reached\n"), "{text}");
    assert!(output.status.success() && output.stderr.is_empty());
}

#[test]
fn few_rows_do_not_reach_everything_and_may_agree() {
    let output = lastdays(LASTDAY, "1", "1", &folder("lastdays-few"));
    let text = String::from_utf8(output.stdout).unwrap();
    assert!(text.contains("not reached: "), "{text}");
    assert!(output.status.success());
}

#[cfg(unix)]
#[test]
fn a_program_that_differs_in_one_row_is_found() {
    let text = difference("lastdays-row", "LASTDAY | sed '17s/.*/19700101/'");
    let own = String::from_utf8(row(17)).unwrap();
    let wanted = printed(own.as_bytes());
    let first = format!(
        "first that does not: rows 1 to 40, row 17: {own:?}, wanted {wanted:?}, printed \"19700101\\n\"; kept: "
    );
    assert!(text.contains(&first), "{text}");
    let kept = std::fs::read(
        PathBuf::from(env!("CARGO_TARGET_TMPDIR")).join("lastdays-row/lastdays.rows"),
    );
    let given: Vec<u8> = rows(1, 40)
        .iter()
        .flat_map(|row| [row, &b"\n"[..]].concat())
        .collect();
    assert_eq!(kept.unwrap(), given);
}

#[cfg(unix)]
#[test]
fn a_program_that_differs_in_inputs_of_their_own_is_found() {
    let reads = "while IFS= read -r row; do printf '%s\\n' \"$row\"; done | LASTDAY";
    let end = difference("lastdays-end", reads);
    assert!(
        end.contains(": the first rows in pieces, row 40: "),
        "{end}"
    );
    let empty = difference("lastdays-empty", "LASTDAY | grep . || echo bad row");
    let first =
        ": row 6 without its end byte, row 1: no row, wanted no row, printed \"bad row\\n\"";
    assert!(row(6).is_empty() && empty.contains(first), "{empty}");
    let ends = difference("lastdays-ends", "printf %s \"$(LASTDAY)\"");
    assert!(
        ends.contains("first that does not: rows 1 to 40, row 40: "),
        "{ends}"
    );
}

#[cfg(unix)]
#[test]
fn a_program_that_fails_or_complains_or_stops_reading_is_found() {
    let fails = difference("lastdays-fails", "LASTDAY; exit 3");
    assert!(
        fails.contains("rows 1 to 40, the program ended with a failure; "),
        "{fails}"
    );
    let complains = difference("lastdays-complains", "LASTDAY; echo row >&2");
    assert!(
        complains.contains("rows 1 to 40, the program wrote to standard error; "),
        "{complains}"
    );
    let stops = difference("lastdays-stops", "head -n 1 | LASTDAY");
    assert!(stops.contains("rows 1 to 40, row 2: "), "{stops}");
    let reads_nothing = difference("lastdays-nothing", "exit 0");
    assert!(
        reads_nothing.contains("rows 1 to 40, row 1: "),
        "{reads_nothing}"
    );
}

#[cfg(unix)]
#[test]
fn a_program_that_prints_its_input_differs() {
    let output = lastdays("/bin/cat", "2000", "1", &folder("lastdays-cat"));
    let text = String::from_utf8(output.stdout).unwrap();
    assert!(
        text.contains("first that does not: rows 1 to 2000, "),
        "{text}"
    );
    assert_eq!(output.status.code(), Some(1));
}

#[test]
fn a_comparison_with_a_program_that_cannot_be_run_fails() {
    let output = lastdays("./no-such-program", "3", "1", &folder("lastdays-missing"));
    assert_eq!(output.status.code(), Some(1));
    assert!(output.stdout.is_empty());
}

#[test]
fn a_comparison_with_a_bad_count_or_seed_fails() {
    let folder = folder("lastdays-bad");
    for count in ["0", "-1", "", "x", "1.5", "99999999999999999999999"] {
        let output = lastdays(LASTDAY, count, "1", &folder);
        assert_eq!(output.status.code(), Some(2), "{count:?}");
        assert!(output.stdout.is_empty());
    }
    assert_eq!(lastdays(LASTDAY, "1", "x", &folder).status.code(), Some(2));
}
