//! Holds a program that counts the bytes of listings against one that prints them
//! and against the reading (document 02, m).
//!
//! compare_label LABEL WHEAT COUNT SEED FOLDER: the first input that differs is kept
//! in FOLDER, with both outputs.

use std::fs;
use std::path::Path;
use std::process::ExitCode;
use wheat_delivery::reading::listing::listing;
use wheat_delivery::trial::input::Input;
use wheat_delivery::trial::label::inputs;
use wheat_delivery::trial::label::reach::{Reach, View};
use wheat_delivery::trial::random::seeds;
use wheat_delivery::trial::running::{Answer, keep};

/// So many seeds reach everything.
const ENOUGH: usize = 1_000;

fn main() -> ExitCode {
    let arguments: Vec<String> = std::env::args().skip(1).collect();
    let (message, status) = match asked(&arguments) {
        Ok((trial, seeds)) => match trial.agrees(&seeds) {
            Ok(true) => return ExitCode::SUCCESS,
            Ok(false) => return ExitCode::FAILURE,
            Err(message) => (message, ExitCode::FAILURE),
        },
        Err(message) => (message, ExitCode::from(2)),
    };
    eprintln!("compare_label: {message}");
    status
}

/// The trial and the seeds that the arguments ask for.
fn asked(arguments: &[String]) -> Result<(Trial<'_>, Vec<u64>), String> {
    let [label, wheat, count, seed, folder] = arguments else {
        return Err("compare_label LABEL WHEAT COUNT SEED FOLDER".to_string());
    };
    let trial = Trial {
        label,
        wheat,
        folder: Path::new(folder),
    };
    Ok((trial, seeds(count, seed)?))
}

/// The two programs, and the folder in which files are lent and kept.
struct Trial<'a> {
    label: &'a str,
    wheat: &'a str,
    folder: &'a Path,
}

impl Trial<'_> {
    /// Whether all inputs agree and, of enough seeds, all is reached.
    fn agrees(&self, seeds: &[u64]) -> Result<bool, String> {
        let folder = self.folder;
        fs::create_dir_all(folder).map_err(|error| format!("{}: {error}", folder.display()))?;
        let mut tally = Tally::default();
        for input in inputs(seeds) {
            if !tally.add(self, &input)? {
                break;
            }
        }
        println!("{} of {} files agree", tally.agreeing, tally.files);
        if let Some(first) = &tally.first {
            println!("first that does not: {first}");
        }
        print!("{}", tally.reach);
        let reached = seeds.len() < ENOUGH || tally.reach.missing().is_empty();
        Ok(tally.first.is_none() && reached)
    }

    /// What both programs do with an input.
    fn run(&self, input: &Input) -> Result<Run, String> {
        let both = [self.label, self.wheat];
        let [label, wheat] = input.given_to_both(both, self.folder)?;
        Ok(Run { label, wheat })
    }
}

/// What the program that counts and the one that prints did with an input.
struct Run {
    label: Answer,
    wheat: Answer,
}

/// Which program differs and how, what is wanted of it and what it printed.
struct Difference {
    what: String,
    wanted: Vec<u8>,
    printed: Vec<u8>,
}

impl Run {
    /// Why the count printed, the bytes printed and the reading's count are not one
    /// number, if they are not.
    fn difference(&self, input: &Input, count: usize) -> Option<Difference> {
        self.of_label(count).or_else(|| self.of_wheat(input, count))
    }

    fn of_label(&self, count: usize) -> Option<Difference> {
        let wanted = format!("{count}\n").into_bytes();
        let what = self.label.unlike(&wanted)?;
        let bytes = self.wheat.output.len();
        Some(Difference {
            what: format!("LABEL, {what}, and WHEAT printed {bytes} bytes"),
            wanted,
            printed: self.label.output.clone(),
        })
    }

    fn of_wheat(&self, input: &Input, count: usize) -> Option<Difference> {
        let bytes = self.wheat.output.len();
        let other = || format!("the program printed {bytes} bytes, wanted are {count}");
        let what = self.wheat.trouble();
        let what = what.or_else(|| (bytes != count).then(other))?;
        Some(Difference {
            what: format!("WHEAT, {what}"),
            wanted: listing(&input.bytes).into_bytes(),
            printed: self.wheat.output.clone(),
        })
    }

    fn ended_well(&self) -> bool {
        self.label.trouble().is_none() && self.wheat.trouble().is_none()
    }
}

#[derive(Default)]
struct Tally {
    files: usize,
    agreeing: usize,
    first: Option<String>,
    reach: Reach,
}

impl Tally {
    /// Gives an input to both programs. Whether they ended well; if not, they are
    /// given no more.
    fn add(&mut self, trial: &Trial, input: &Input) -> Result<bool, String> {
        let view = View::new(&input.bytes);
        let run = trial.run(input)?;
        self.files += 1;
        self.reach.add(&view);
        match run.difference(input, view.count) {
            None => self.agreeing += 1,
            Some(difference) if self.first.is_none() => {
                let both = [&input.bytes[..], &difference.wanted, &difference.printed];
                let kept = keep(trial.folder, "label", "events", both)?;
                let what = difference.what;
                self.first = Some(format!("{}, {what}; kept: {kept}", input.name));
            }
            Some(_) => {}
        }
        Ok(run.ended_well())
    }
}
