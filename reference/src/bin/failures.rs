//! Reads an event file on standard input and prints how the lots of the section asked
//! end over all patterns of the sections named (document 02, n).
//!
//! failures ASKED [NAMED ..]

use std::env;
use std::ffi::{OsStr, OsString};
use std::io::{self, Read, Write};
use std::process::ExitCode;
use wheat_delivery::reading::failures::printed;

fn main() -> io::Result<ExitCode> {
    let arguments: Vec<OsString> = env::args_os().skip(1).collect();
    let arguments = arguments.iter().map(OsString::as_os_str);
    let arguments: Vec<&[u8]> = arguments.map(OsStr::as_encoded_bytes).collect();
    let mut file = Vec::new();
    io::stdin().lock().read_to_end(&mut file)?;
    let Some(row) = printed(&arguments, &file) else {
        eprintln!("failures ASKED [NAMED ..] < FILE, up to 256 arguments");
        return Ok(ExitCode::from(2));
    };
    io::stdout().lock().write_all(row.as_bytes())?;
    Ok(ExitCode::SUCCESS)
}
