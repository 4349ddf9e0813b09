//! Reads an event file on standard input and prints its explanation.

use std::io::{self, Read, Write};
use wheat_delivery::reading::explain::explain;

fn main() -> io::Result<()> {
    let mut file = Vec::new();
    io::stdin().lock().read_to_end(&mut file)?;
    io::stdout().lock().write_all(&explain(&file))
}
