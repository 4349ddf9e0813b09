//! Holds a program against the weekdays of the tenths (document 02, d).
//!
//! tenths PROGRAM FOLDER: the file that is lent stands in FOLDER while it is.

use std::fs;
use std::path::Path;
use std::process::ExitCode;
use wheat_delivery::reading::calendar;
use wheat_delivery::trial::running::answer;

fn main() -> ExitCode {
    let arguments: Vec<String> = std::env::args().skip(1).collect();
    match compared(&arguments) {
        Ok(None) => {
            println!("the 360 tenths agree");
            ExitCode::SUCCESS
        }
        Ok(Some(what)) => {
            println!("the tenths do not agree: {what}");
            ExitCode::FAILURE
        }
        Err(message) => {
            eprintln!("tenths: {message}");
            ExitCode::from(2)
        }
    }
}

/// Why the program does not print the tenths, if it does not.
fn compared(arguments: &[String]) -> Result<Option<String>, String> {
    let [program, folder] = arguments else {
        return Err("tenths PROGRAM FOLDER".to_string());
    };
    let folder = Path::new(folder);
    fs::create_dir_all(folder).map_err(|error| format!("{}: {error}", folder.display()))?;
    let answer = answer(program, &[], b"", folder)?;
    Ok(answer.unlike(calendar::tenths().as_bytes()))
}
