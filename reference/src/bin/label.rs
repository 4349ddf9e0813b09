//! Reads an event file on standard input and prints the byte count of its listing
//! (document 02, m).

use std::io::{self, Read, Write};
use wheat_delivery::reading::label::of_file;

fn main() -> io::Result<()> {
    let mut file = Vec::new();
    io::stdin().lock().read_to_end(&mut file)?;
    writeln!(io::stdout().lock(), "{}", of_file(&file))
}
