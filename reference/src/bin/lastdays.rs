//! Holds a program against the last trading days of generated rows (document 02,
//! e).
//!
//! lastdays PROGRAM COUNT SEED FOLDER: the first input that differs is kept in
//! FOLDER, with both outputs.

use std::fs;
use std::path::Path;
use std::process::ExitCode;
use wheat_delivery::reading::rows::{printed, rows};
use wheat_delivery::trial::input::Input;
use wheat_delivery::trial::random::seeds;
use wheat_delivery::trial::rows::inputs::inputs;
use wheat_delivery::trial::rows::reach::Reach;
use wheat_delivery::trial::rows::row;
use wheat_delivery::trial::running::keep;

/// So many rows reach everything.
const ENOUGH: usize = 2_000;

fn main() -> ExitCode {
    let arguments: Vec<String> = std::env::args().skip(1).collect();
    let (message, status) = match generated(&arguments) {
        Ok(rows) => match compared(&arguments[0], Path::new(&arguments[3]), &rows) {
            Ok(true) => return ExitCode::SUCCESS,
            Ok(false) => return ExitCode::FAILURE,
            Err(message) => (message, ExitCode::FAILURE),
        },
        Err(message) => (message, ExitCode::from(2)),
    };
    eprintln!("lastdays: {message}");
    status
}

/// The rows that the arguments ask for.
fn generated(arguments: &[String]) -> Result<Vec<Vec<u8>>, String> {
    let [_, count, seed, _] = arguments else {
        return Err("lastdays PROGRAM COUNT SEED FOLDER".to_string());
    };
    Ok(seeds(count, seed)?.into_iter().map(row).collect())
}

/// Whether all inputs agree and, of enough rows, all is reached.
fn compared(program: &str, folder: &Path, rows: &[Vec<u8>]) -> Result<bool, String> {
    fs::create_dir_all(folder).map_err(|error| format!("{}: {error}", folder.display()))?;
    let mut tally = Tally::default();
    for input in inputs(rows) {
        if !tally.add(program, folder, &input)? {
            break;
        }
    }
    println!("{} of {} rows agree", tally.agreeing, tally.rows);
    if let Some(first) = &tally.first {
        println!("first that does not: {first}");
    }
    let reach = Reach::of(rows);
    print!("{reach}");
    let reached = rows.len() < ENOUGH || reach.missing().is_empty();
    Ok(tally.first.is_none() && reached)
}

#[derive(Default)]
struct Tally {
    rows: usize,
    agreeing: usize,
    first: Option<String>,
}

impl Tally {
    /// Gives an input to the program and holds each row printed against the
    /// reading's. Whether the program ended well; if not, it is given no more.
    fn add(&mut self, program: &str, folder: &Path, input: &Input) -> Result<bool, String> {
        let wanted = printed(&input.bytes).into_bytes();
        let answer = input.given_to(program, &[], folder)?;
        let (own, theirs) = (with_ends(&wanted), with_ends(&answer.output));
        self.rows += own.len();
        self.agreeing += own.iter().zip(&theirs).filter(|(a, b)| a == b).count();
        let difference = (own != theirs).then(|| difference(&input.bytes, &own, &theirs));
        let trouble = answer.trouble();
        let what: Vec<String> = trouble.iter().cloned().chain(difference).collect();
        if self.first.is_none() && !what.is_empty() {
            let both = [&input.bytes[..], &wanted, &answer.output];
            let kept = keep(folder, "lastdays", "rows", both)?;
            let what = what.join("; ");
            self.first = Some(format!("{}, {what}; kept: {kept}", input.name));
        }
        Ok(trouble.is_none())
    }
}

/// The rows of an output, each with its end byte if it has one.
fn with_ends(output: &[u8]) -> Vec<&[u8]> {
    output.split_inclusive(|&byte| byte == 10).collect()
}

/// The first row for which another was printed than wanted.
fn difference(input: &[u8], own: &[&[u8]], theirs: &[&[u8]]) -> String {
    let alike = own.iter().zip(theirs).take_while(|(a, b)| a == b).count();
    let [wanted, printed] = [own, theirs].map(|rows| quoted(rows.get(alike).copied()));
    let row = quoted(rows(input).nth(alike));
    let place = alike + 1;
    format!("row {place}: {row}, wanted {wanted}, printed {printed}")
}

/// A row as text, its start if it is very long.
fn quoted(row: Option<&[u8]>) -> String {
    let text = |row: &[u8]| format!("{:?}", String::from_utf8_lossy(row));
    match row {
        None => "no row".to_string(),
        Some(row) if row.len() > 700 => {
            format!("{} and so on, {} bytes", text(&row[..100]), row.len())
        }
        Some(row) => text(row),
    }
}
