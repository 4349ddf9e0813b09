//! Writes generated files into a folder, reports what they reach, writes the
//! files of `examples`, or one of a size that is asked for.
//!
//! generate COUNT SEED FOLDER | generate --report COUNT SEED
//! generate --examples FOLDER | generate --sized SECTIONS EVENTS FILE
//! generate --trading SECTIONS EVENTS FILE

use std::path::Path;
use std::process::ExitCode;
use wheat_delivery::reading::book::SECTIONS;
use wheat_delivery::reading::file::EVENTS;
use wheat_delivery::trial::examples::examples;
use wheat_delivery::trial::generate::{file, kind, sized, trading};
use wheat_delivery::trial::reach::Reach;

const USAGE: &str = "\
generate COUNT SEED FOLDER
generate --report COUNT SEED
generate --examples FOLDER
generate --sized SECTIONS EVENTS FILE
generate --trading SECTIONS EVENTS FILE";

fn main() -> ExitCode {
    let arguments: Vec<String> = std::env::args().skip(1).collect();
    let arguments: Vec<&str> = arguments.iter().map(String::as_str).collect();
    let done = match arguments.as_slice() {
        ["--report", count, seed] => report(count, seed),
        ["--examples", folder] => write_examples(Path::new(folder)),
        ["--sized", sections, events, path] => write_sized(sections, events, path),
        ["--trading", sections, events, path] => write_trading(sections, events, path),
        [count, seed, folder] => write(count, seed, Path::new(folder)),
        _ => Err(USAGE.to_string()),
    };
    match done {
        Ok(()) => ExitCode::SUCCESS,
        Err(message) => {
            eprintln!("{message}");
            ExitCode::FAILURE
        }
    }
}

/// The seeds from `seed` on, so many of them.
fn seeds(count: &str, seed: &str) -> Result<impl Iterator<Item = u64>, String> {
    let count: u64 = count.parse().map_err(|_| format!("not a count: {count}"))?;
    let seed: u64 = seed.parse().map_err(|_| format!("not a seed: {seed}"))?;
    Ok((0..count).map(move |i| seed.wrapping_add(i)))
}

fn report(count: &str, seed: &str) -> Result<(), String> {
    let mut reach = Reach::default();
    for seed in seeds(count, seed)? {
        reach.add(kind(seed), &file(seed));
    }
    print!("{reach}");
    match reach.missing().len() {
        0 => Ok(()),
        missing => Err(format!("{missing} not reached")),
    }
}

fn write(count: &str, seed: &str, folder: &Path) -> Result<(), String> {
    std::fs::create_dir_all(folder).map_err(|error| error.to_string())?;
    for seed in seeds(count, seed)? {
        let path = folder.join(format!("{seed}.events"));
        std::fs::write(path, file(seed)).map_err(|error| error.to_string())?;
    }
    Ok(())
}

fn write_examples(folder: &Path) -> Result<(), String> {
    for (name, bytes) in examples() {
        std::fs::write(folder.join(name), bytes).map_err(|error| error.to_string())?;
    }
    Ok(())
}

fn write_sized(sections: &str, events: &str, path: &str) -> Result<(), String> {
    let sized_sections = |n: &usize| (16..=SECTIONS).contains(n) && n.is_multiple_of(16);
    let sections =
        number(sections, sized_sections).ok_or("SECTIONS is a multiple of 16, from 16 to 128")?;
    write_file(sized(sections, events_of(events)?), path)
}

fn write_trading(sections: &str, events: &str, path: &str) -> Result<(), String> {
    let sections =
        number(sections, |&n| n != 1 && n <= SECTIONS).ok_or("SECTIONS is 0, or from 2 to 128")?;
    let events = events_of(events)?;
    if sections == 0 && events > 0 {
        return Err("no event without sections".to_string());
    }
    write_file(trading(sections, events), path)
}

fn number(text: &str, fits: impl Fn(&usize) -> bool) -> Option<usize> {
    text.parse().ok().filter(fits)
}

fn events_of(text: &str) -> Result<usize, String> {
    let events = number(text, |&n| n <= EVENTS);
    events.ok_or("EVENTS is at most 3800".to_string())
}

fn write_file(bytes: Option<Vec<u8>>, path: &str) -> Result<(), String> {
    let bytes = bytes.ok_or("too few events for so many sections")?;
    std::fs::write(path, bytes).map_err(|error| error.to_string())
}
