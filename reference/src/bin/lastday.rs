//! Reads rows on standard input, each a year, a month and closed dates, and
//! prints the last trading day of each (document 02, e).

use std::io::{self, Read, Write};
use wheat_delivery::reading::rows::printed;

fn main() -> io::Result<()> {
    let mut input = Vec::new();
    io::stdin().lock().read_to_end(&mut input)?;
    io::stdout().lock().write_all(printed(&input).as_bytes())
}
