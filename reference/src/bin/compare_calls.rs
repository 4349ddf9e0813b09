//! Holds a program against the answers of the calls of many files (document 02,
//! b).
//!
//! compare_calls PROGRAM COUNT SEED FOLDER: the first input that differs is kept
//! in FOLDER, with both outputs.

use std::fs;
use std::path::Path;
use std::process::ExitCode;
use wheat_delivery::reading::answers::printed;
use wheat_delivery::trial::calls::inputs;
use wheat_delivery::trial::calls::reach::Reach;
use wheat_delivery::trial::input::Input;
use wheat_delivery::trial::random::seeds;
use wheat_delivery::trial::running::keep;

/// So many files reach everything.
const ENOUGH: usize = 500;

fn main() -> ExitCode {
    let arguments: Vec<String> = std::env::args().skip(1).collect();
    let (message, status) = match asked(&arguments) {
        Ok(seeds) => match compared(&arguments[0], Path::new(&arguments[3]), &seeds) {
            Ok(true) => return ExitCode::SUCCESS,
            Ok(false) => return ExitCode::FAILURE,
            Err(message) => (message, ExitCode::FAILURE),
        },
        Err(message) => (message, ExitCode::from(2)),
    };
    eprintln!("compare_calls: {message}");
    status
}

/// The seeds that the arguments ask for.
fn asked(arguments: &[String]) -> Result<Vec<u64>, String> {
    let [_, count, seed, _] = arguments else {
        return Err("compare_calls PROGRAM COUNT SEED FOLDER".to_string());
    };
    seeds(count, seed)
}

/// Whether all inputs agree and, of enough seeds, all is reached.
fn compared(program: &str, folder: &Path, seeds: &[u64]) -> Result<bool, String> {
    fs::create_dir_all(folder).map_err(|error| format!("{}: {error}", folder.display()))?;
    let mut tally = Tally::default();
    for input in inputs(seeds) {
        if !tally.add(program, folder, &input)? {
            break;
        }
    }
    println!("{} of {} files agree", tally.agreeing, tally.files);
    if let Some(first) = &tally.first {
        println!("first that does not: {first}");
    }
    print!("{}", tally.reach);
    let reached = seeds.len() < ENOUGH || tally.reach.missing().is_empty();
    Ok(tally.first.is_none() && reached)
}

#[derive(Default)]
struct Tally {
    files: usize,
    agreeing: usize,
    first: Option<String>,
    reach: Reach,
}

impl Tally {
    /// Holds what the program prints for an input against the reading. Whether the
    /// program ended well; if not, it is given no more.
    fn add(&mut self, program: &str, folder: &Path, input: &Input) -> Result<bool, String> {
        let wanted = printed(&input.bytes).into_bytes();
        let answer = input.given_to(program, &[], folder)?;
        self.files += 1;
        self.reach.add(&input.bytes);
        match answer.unlike(&wanted) {
            None => self.agreeing += 1,
            Some(what) if self.first.is_none() => {
                let both = [&input.bytes[..], &wanted, &answer.output];
                let kept = keep(folder, "calls", "events", both)?;
                self.first = Some(format!("{}, {what}; kept: {kept}", input.name));
            }
            Some(_) => {}
        }
        Ok(answer.trouble().is_none())
    }
}
