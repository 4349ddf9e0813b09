//! Reads an event file on standard input, gives its events to their calls and
//! prints the answers, refused ones among them.

use std::io::{self, Read, Write};
use wheat_delivery::reading::answers::printed;

fn main() -> io::Result<()> {
    let mut file = Vec::new();
    io::stdin().lock().read_to_end(&mut file)?;
    io::stdout().lock().write_all(printed(&file).as_bytes())
}
