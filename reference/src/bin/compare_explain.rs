//! Holds a program that explains files against the reading, and its text against
//! what the program `wheat` prints for them.
//!
//! compare_explain PROGRAM WHEAT COUNT SEED FOLDER: the first input that differs is
//! kept in FOLDER, with both outputs.

use std::fs;
use std::path::Path;
use std::process::ExitCode;
use wheat_delivery::reading::explain::explain;
use wheat_delivery::trial::explain::checks::{fault, first_difference};
use wheat_delivery::trial::explain::inputs;
use wheat_delivery::trial::explain::reach::Reach;
use wheat_delivery::trial::input::Input;
use wheat_delivery::trial::random::seeds;
use wheat_delivery::trial::running::{Answer, keep};

/// So many inputs that differ are named.
const NAMED: usize = 20;

fn main() -> ExitCode {
    let arguments: Vec<String> = std::env::args().skip(1).collect();
    let (message, status) = match asked(&arguments) {
        Ok((trial, seeds)) => match trial.agrees(&seeds) {
            Ok(true) => return ExitCode::SUCCESS,
            Ok(false) => return ExitCode::FAILURE,
            Err(message) => (message, ExitCode::FAILURE),
        },
        Err(message) => (message, ExitCode::from(2)),
    };
    eprintln!("compare_explain: {message}");
    status
}

/// The trial and the seeds that the arguments ask for.
fn asked(arguments: &[String]) -> Result<(Trial<'_>, Vec<u64>), String> {
    let [program, wheat, count, seed, folder] = arguments else {
        return Err("compare_explain PROGRAM WHEAT COUNT SEED FOLDER".to_string());
    };
    let trial = Trial {
        program,
        wheat,
        folder: Path::new(folder),
    };
    Ok((trial, seeds(count, seed)?))
}

/// The two programs, and the folder in which files are lent and kept.
struct Trial<'a> {
    program: &'a str,
    wheat: &'a str,
    folder: &'a Path,
}

impl Trial<'_> {
    /// Whether all inputs agree and all is reached.
    fn agrees(&self, seeds: &[u64]) -> Result<bool, String> {
        let folder = self.folder;
        fs::create_dir_all(folder).map_err(|error| format!("{}: {error}", folder.display()))?;
        let mut tally = Tally::default();
        for input in inputs(seeds) {
            if !tally.add(self, &input)? {
                break;
            }
        }
        println!("{} of {} files agree", tally.agreeing, tally.files);
        for different in &tally.different {
            println!("does not agree: {different}");
        }
        print!("{}", tally.reach);
        let reached = tally.reach.missing().is_empty();
        Ok(tally.agreeing == tally.files && reached)
    }
}

/// Why a program's answers are not as wanted, in one row for each reason.
fn differences(program: &Answer, wheat: &Answer, wanted: &[u8]) -> Vec<String> {
    if let Some(trouble) = program.trouble() {
        return vec![format!("PROGRAM, {trouble}")];
    }
    if let Some(trouble) = wheat.trouble() {
        return vec![format!("WHEAT, {trouble}")];
    }
    let differs = first_difference(wanted, &program.output);
    let fault = fault(&program.output, &wheat.output).map(|why| format!("by its text, {why}"));
    differs.into_iter().chain(fault).collect()
}

#[derive(Default)]
struct Tally {
    files: usize,
    agreeing: usize,
    different: Vec<String>,
    reach: Reach,
}

impl Tally {
    /// Gives an input to both programs. Whether they ended well; if not, they are
    /// given no more.
    fn add(&mut self, trial: &Trial, input: &Input) -> Result<bool, String> {
        let wanted = explain(&input.bytes);
        let given = |to: &str| input.given_to(to, &[], trial.folder);
        let (program, wheat) = (given(trial.program)?, given(trial.wheat)?);
        self.files += 1;
        self.reach.add(&wanted);
        let different = differences(&program, &wheat, &wanted);
        let mut said = format!("{}, {}", input.name, different.join("; "));
        match (different.len(), self.files - self.agreeing) {
            (0, _) => self.agreeing += 1,
            (_, 1) => {
                let bytes = [&input.bytes[..], &wanted, &program.output];
                said += &format!(
                    "; kept: {}",
                    keep(trial.folder, "explain", "events", bytes)?
                );
                self.different.push(said);
            }
            (_, ..=NAMED) => self.different.push(said),
            _ => {}
        }
        Ok(program.trouble().is_none() && wheat.trouble().is_none())
    }
}
