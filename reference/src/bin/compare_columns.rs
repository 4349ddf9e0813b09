//! Holds a program against the operands by column of many files (document 02, l).
//!
//! compare_columns PROGRAM COUNT SEED FOLDER: the first input that differs is
//! kept in FOLDER, with both outputs.

use std::fs;
use std::path::Path;
use std::process::ExitCode;
use wheat_delivery::reading::columns::printed;
use wheat_delivery::reading::file::{events_by_length, length};
use wheat_delivery::trial::columns::reach::Reach;
use wheat_delivery::trial::columns::{inputs, random_bytes};
use wheat_delivery::trial::input::Input;
use wheat_delivery::trial::random::seeds;
use wheat_delivery::trial::running::{Answer, answer, keep};

/// Arguments that the program turns away.
const OTHERS: [&[&str]; 4] = [&["forth"], &["bac"], &["backs"], &["back", "back"]];

fn main() -> ExitCode {
    let arguments: Vec<String> = std::env::args().skip(1).collect();
    let (message, status) = match asked(&arguments) {
        Ok((trial, seeds)) => match trial.agrees(&seeds) {
            Ok(true) => return ExitCode::SUCCESS,
            Ok(false) => return ExitCode::FAILURE,
            Err(message) => (message, ExitCode::FAILURE),
        },
        Err(message) => (message, ExitCode::from(2)),
    };
    eprintln!("compare_columns: {message}");
    status
}

/// The trial and the seeds that the arguments ask for.
fn asked(arguments: &[String]) -> Result<(Trial<'_>, Vec<u64>), String> {
    let [program, count, seed, folder] = arguments else {
        return Err("compare_columns PROGRAM COUNT SEED FOLDER".to_string());
    };
    let folder = Path::new(folder);
    Ok((Trial { program, folder }, seeds(count, seed)?))
}

/// A program, and the folder in which files are lent and kept.
struct Trial<'a> {
    program: &'a str,
    folder: &'a Path,
}

impl Trial<'_> {
    /// Whether all inputs agree, everything is reached and other arguments are
    /// turned away. A program that did not end well is given no more.
    fn agrees(&self, seeds: &[u64]) -> Result<bool, String> {
        let folder = self.folder;
        fs::create_dir_all(folder).map_err(|error| format!("{}: {error}", folder.display()))?;
        let mut tally = Tally::default();
        let mut ended_well = true;
        for input in inputs(seeds) {
            ended_well = tally.add(self, &input)?;
            if !ended_well {
                break;
            }
        }
        println!("{} of {} files agree", tally.agreeing, tally.files);
        if let Some(first) = &tally.first {
            println!("first that does not: {first}");
        }
        let away = ended_well && self.turns_others_away()?;
        print!("{}", tally.reach);
        Ok(away && tally.first.is_none() && tally.reach.missing().is_empty())
    }

    /// The first run over an input that does not print what is wanted: the input
    /// turned, and turned back; each followed by the other, where the length is
    /// fit, gives the first bytes again.
    fn differing(&self, input: &Input) -> Result<Option<Run>, String> {
        for back in [false, true] {
            let run = self.run(input, back, printed(back, &input.bytes))?;
            if run.difference().is_some() {
                return Ok(Some(run));
            }
            if events_by_length(&input.bytes).is_err() {
                continue;
            }
            let turned = Input {
                name: run.name,
                bytes: run.answer.output,
                in_pieces: input.in_pieces,
            };
            let again = self.run(&turned, !back, input.bytes.clone())?;
            if again.difference().is_some() {
                return Ok(Some(again));
            }
        }
        Ok(None)
    }

    fn run(&self, input: &Input, back: bool, wanted: Vec<u8>) -> Result<Run, String> {
        let (words, arguments): (&str, &[&str]) = match back {
            true => ("turned back", &["back"]),
            false => ("turned", &[]),
        };
        Ok(Run {
            name: format!("{}, {words}", input.name),
            given: input.bytes.clone(),
            wanted,
            answer: input.given_to(self.program, arguments, self.folder)?,
        })
    }

    /// Whether the program turns the other arguments away, given a fit file.
    fn turns_others_away(&self) -> Result<bool, String> {
        let file = random_bytes(0, length(1));
        let mut taken = Vec::new();
        for arguments in OTHERS {
            let answer = answer(self.program, arguments, &file, self.folder)?;
            let why = answer.not_turned_away();
            taken.extend(why.map(|why| format!("{arguments:?}: {why}")));
        }
        let (away, all) = (OTHERS.len() - taken.len(), OTHERS.len());
        println!("{away} of {all} other arguments are turned away");
        if let Some(first) = taken.first() {
            println!("first that are not: {first}");
        }
        Ok(taken.is_empty())
    }
}

/// A run of the program: what it was given, what is wanted and what it did.
struct Run {
    name: String,
    given: Vec<u8>,
    wanted: Vec<u8>,
    answer: Answer,
}

impl Run {
    /// Why this is not what is wanted, if it is not.
    fn difference(&self) -> Option<String> {
        let trouble = self.answer.trouble();
        trouble.or_else(|| parting(&self.wanted, &self.answer.output))
    }
}

/// The first byte in which what was printed parts from what is wanted.
fn parting(wanted: &[u8], printed: &[u8]) -> Option<String> {
    let alike = wanted.iter().zip(printed).take_while(|(a, b)| a == b);
    let place = alike.count();
    let [own, theirs] = [wanted, printed].map(|bytes| match bytes.get(place) {
        Some(byte) => format!("{byte} ({} bytes)", bytes.len()),
        None => format!("no byte ({} bytes)", bytes.len()),
    });
    (wanted != printed).then(|| format!("byte {place}: wanted {own}, printed {theirs}"))
}

#[derive(Default)]
struct Tally {
    files: usize,
    agreeing: usize,
    first: Option<String>,
    reach: Reach,
}

impl Tally {
    /// Holds an input against the reading. Whether the program ended well.
    fn add(&mut self, trial: &Trial, input: &Input) -> Result<bool, String> {
        self.files += 1;
        self.reach.add(&input.bytes);
        let Some(run) = trial.differing(input)? else {
            self.agreeing += 1;
            return Ok(true);
        };
        if let (None, Some(what)) = (&self.first, run.difference()) {
            let both = [&run.given[..], &run.wanted, &run.answer.output];
            let kept = keep(trial.folder, "columns", "events", both)?;
            self.first = Some(format!("{}, {what}; kept: {kept}", run.name));
        }
        Ok(run.answer.trouble().is_none())
    }
}
