//! Holds a program against the counts over the patterns of many cases, each a file and
//! arguments (document 02, n).
//!
//! compare_failures PROGRAM COUNT SEED FOLDER: the first case that differs is kept in
//! FOLDER, with its arguments and both outputs.

use std::fs;
use std::path::Path;
use std::process::ExitCode;
use wheat_delivery::reading::failures::ARGUMENTS;
use wheat_delivery::trial::failures::reach::Reach;
use wheat_delivery::trial::failures::{Case, cases};
use wheat_delivery::trial::hand::worked;
use wheat_delivery::trial::random::seeds;
use wheat_delivery::trial::running::{answer, keep};

/// So many seeds reach everything.
const ENOUGH: usize = 200;

fn main() -> ExitCode {
    let arguments: Vec<String> = std::env::args().skip(1).collect();
    let (message, status) = match asked(&arguments) {
        Ok((trial, seeds)) => match trial.agrees(&seeds) {
            Ok(true) => return ExitCode::SUCCESS,
            Ok(false) => return ExitCode::FAILURE,
            Err(message) => (message, ExitCode::FAILURE),
        },
        Err(message) => (message, ExitCode::from(2)),
    };
    eprintln!("compare_failures: {message}");
    status
}

/// The trial and the seeds that the arguments ask for.
fn asked(arguments: &[String]) -> Result<(Trial<'_>, Vec<u64>), String> {
    let [program, count, seed, folder] = arguments else {
        return Err("compare_failures PROGRAM COUNT SEED FOLDER".to_string());
    };
    let folder = Path::new(folder);
    Ok((Trial { program, folder }, seeds(count, seed)?))
}

/// A program, and the folder in which files are lent and kept.
struct Trial<'a> {
    program: &'a str,
    folder: &'a Path,
}

impl Trial<'_> {
    /// Whether all cases agree, no argument and too many are turned away and, of
    /// enough seeds, all is reached. A program that did not end well is given no more.
    fn agrees(&self, seeds: &[u64]) -> Result<bool, String> {
        let folder = self.folder;
        fs::create_dir_all(folder).map_err(|error| format!("{}: {error}", folder.display()))?;
        let mut tally = Tally::default();
        let mut ended_well = true;
        for case in cases(seeds) {
            ended_well = tally.add(self, &case)?;
            if !ended_well {
                break;
            }
        }
        println!("{} of {} cases agree", tally.agreeing, tally.cases);
        if let Some(first) = &tally.first {
            println!("first that does not: {first}");
        }
        let away = ended_well && self.turns_others_away()?;
        print!("{}", tally.reach);
        let reached = seeds.len() < ENOUGH || tally.reach.missing().is_empty();
        Ok(away && tally.first.is_none() && reached)
    }

    /// Whether the program turns no argument and too many away, given a fit file.
    fn turns_others_away(&self) -> Result<bool, String> {
        let file = worked().file();
        let mut away = 0;
        for count in [0, ARGUMENTS + 1] {
            let answer = answer(self.program, &vec!["0"; count], &file, self.folder)?;
            match answer.not_turned_away() {
                None => away += 1,
                Some(why) => println!("{count} arguments are not turned away: {why}"),
            }
        }
        println!("{away} of 2 other numbers of arguments are turned away");
        Ok(away == 2)
    }
}

#[derive(Default)]
struct Tally {
    cases: usize,
    agreeing: usize,
    first: Option<String>,
    reach: Reach,
}

impl Tally {
    /// Holds what the program prints for a case against the reading. Whether the
    /// program ended well.
    fn add(&mut self, trial: &Trial, case: &Case) -> Result<bool, String> {
        let wanted = case.prints().expect("neither no argument nor too many");
        let (input, folder) = (&case.input, trial.folder);
        let answer = input.given_to(trial.program, &case.given(), folder)?;
        self.cases += 1;
        self.reach.add(case, &wanted);
        match answer.unlike(wanted.as_bytes()) {
            None => self.agreeing += 1,
            Some(what) if self.first.is_none() => {
                let both = [&input.bytes[..], wanted.as_bytes(), &answer.output];
                let kept = keep(folder, "failures", "events", both)?;
                let arguments = keep_arguments(folder, case)?;
                let name = &input.name;
                self.first = Some(format!("{name}, {arguments}, {what}; kept: {kept}"));
            }
            Some(_) => {}
        }
        Ok(answer.trouble().is_none())
    }
}

/// Keeps the arguments of a case beside its file; returns them, the first of many.
fn keep_arguments(folder: &Path, case: &Case) -> Result<String, String> {
    let quoted = |words: &[String]| -> Vec<String> {
        words.iter().map(|word| format!("{word:?}")).collect()
    };
    let path = folder.join("failures.arguments");
    let rows = quoted(&case.arguments).join("\n") + "\n";
    fs::write(&path, rows).map_err(|error| format!("{}: {error}", path.display()))?;
    let more = case.arguments.len().saturating_sub(11);
    let some = quoted(&case.arguments[..case.arguments.len() - more]).join(" ");
    Ok(match more {
        0 => some,
        _ => format!("{some} and {more} more"),
    })
}
