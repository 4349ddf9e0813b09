//! Holds a program against the claims of "Checked by hand" that have no star.
//!
//! cases PROGRAM FOLDER: the files that are lent stand in FOLDER while they are.

use std::fs;
use std::path::Path;
use std::process::ExitCode;
use wheat_delivery::trial::hand::unstarred;
use wheat_delivery::trial::running::answer;

fn main() -> ExitCode {
    let arguments: Vec<String> = std::env::args().skip(1).collect();
    match cases(&arguments) {
        Ok(true) => ExitCode::SUCCESS,
        Ok(false) => ExitCode::FAILURE,
        Err(message) => {
            eprintln!("cases: {message}");
            ExitCode::from(2)
        }
    }
}

/// Whether the program prints what every claim says.
fn cases(arguments: &[String]) -> Result<bool, String> {
    let [program, folder] = arguments else {
        return Err("cases PROGRAM FOLDER".to_string());
    };
    let folder = Path::new(folder);
    fs::create_dir_all(folder).map_err(|error| format!("{}: {error}", folder.display()))?;
    let cases = unstarred();
    let mut differing = Vec::new();
    for case in &cases {
        let answer = answer(program, &[], &case.file(), folder)?;
        if let Some(what) = answer.unlike(case.prints.as_bytes()) {
            differing.push(format!("{}: {what}", case.claim));
        }
    }
    let agreeing = cases.len() - differing.len();
    println!("{agreeing} of {} claims hold", cases.len());
    for what in &differing {
        println!("does not hold: {what}");
    }
    Ok(differing.is_empty())
}
