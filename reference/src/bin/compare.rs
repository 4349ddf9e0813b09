//! Holds a program against the library over generated files.
//!
//! compare PROGRAM COUNT SEED FOLDER: the first file that differs is kept in
//! FOLDER, with both outputs.

use std::fs;
use std::path::Path;
use std::process::ExitCode;
use wheat_delivery::reading::listing;
use wheat_delivery::trial::generate;
use wheat_delivery::trial::random::seeds;
use wheat_delivery::trial::running::{answer, keep};

fn main() -> ExitCode {
    let arguments: Vec<String> = std::env::args().skip(1).collect();
    match compare(&arguments) {
        Ok(true) => ExitCode::SUCCESS,
        Ok(false) => ExitCode::FAILURE,
        Err(message) => {
            eprintln!("compare: {message}");
            ExitCode::from(2)
        }
    }
}

/// Whether all files agree.
fn compare(arguments: &[String]) -> Result<bool, String> {
    let [program, count, seed, folder] = arguments else {
        return Err("compare PROGRAM COUNT SEED FOLDER".to_string());
    };
    let seeds = seeds(count, seed)?;
    let folder = Path::new(folder);
    fs::create_dir_all(folder).map_err(|error| format!("{}: {error}", folder.display()))?;
    let mut agreeing = 0;
    let mut first = None;
    for &seed in &seeds {
        let bytes = generate::file(seed);
        let wanted = listing::listing(&bytes).into_bytes();
        let answer = answer(program, &[], &bytes, folder)?;
        match answer.unlike(&wanted) {
            None => agreeing += 1,
            Some(what) if first.is_none() => {
                let both = [&bytes[..], &wanted, &answer.output];
                let kept = keep(folder, &seed.to_string(), "events", both)?;
                let kind = generate::kind(seed);
                first = Some(format!("seed {seed} ({kind:?}), {what}; kept: {kept}"));
            }
            Some(_) => {}
        }
    }
    println!("{agreeing} of {} files agree", seeds.len());
    if let Some(first) = &first {
        println!("first that does not: {first}");
    }
    Ok(first.is_none())
}
