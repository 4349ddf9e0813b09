//! Reads an event file on standard input and prints it with its operands by
//! column (document 02, l); with the argument `back` it turns such a file back.

use std::env;
use std::ffi::OsString;
use std::io::{self, Read, Write};
use std::process::ExitCode;
use wheat_delivery::reading::columns::printed;

fn main() -> io::Result<ExitCode> {
    let arguments: Vec<OsString> = env::args_os().skip(1).collect();
    let back = match arguments.as_slice() {
        [] => false,
        [word] if word == "back" => true,
        _ => {
            eprintln!("columns [back] < FILE");
            return Ok(ExitCode::from(2));
        }
    };
    let mut file = Vec::new();
    io::stdin().lock().read_to_end(&mut file)?;
    let mut output = io::stdout().lock();
    output.write_all(&printed(back, &file))?;
    output.flush()?;
    Ok(ExitCode::SUCCESS)
}
