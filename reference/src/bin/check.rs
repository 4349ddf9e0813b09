//! Runs generated files through the library with demand 3's assertions.
//!
//! check COUNT SEED

use std::process::ExitCode;
use std::time::Instant;
use wheat_delivery::reading::book::Book;
use wheat_delivery::reading::file::{self, Reader, whole};
use wheat_delivery::reading::listing::Lists;
use wheat_delivery::trial::demand::{self, Call, Ending};
use wheat_delivery::trial::generate::lists::{self, singly, with_blocks};
use wheat_delivery::trial::generate::{self, Contract};

fn main() -> ExitCode {
    let arguments: Vec<String> = std::env::args().skip(1).collect();
    let numbers: Vec<u64> = arguments.iter().filter_map(|a| a.parse().ok()).collect();
    let (&[count, seed], 2) = (numbers.as_slice(), arguments.len()) else {
        eprintln!("check COUNT SEED");
        return ExitCode::FAILURE;
    };
    let begin = Instant::now();
    let mut tally = Tally::default();
    for seed in (0..count).map(|i| seed.wrapping_add(i)) {
        if let Err(breach) = tally.check(seed) {
            println!("seed {seed}: {breach}");
            return ExitCode::FAILURE;
        }
    }
    let seconds = begin.elapsed().as_secs_f64();
    let Tally {
        accepted,
        lists,
        calls,
        refused,
        expiries,
        removals,
        blocks,
        in_blocks,
        uneven,
    } = tally;
    println!("{count} files hold in {seconds:.1} s: {accepted} accepted, with the writer's bytes");
    println!(
        "{lists} lists of calls hold: {calls} calls, {refused} refused, \
         {expiries} lists with an expiry, {removals} of them with a removed line"
    );
    println!(
        "of these {in_blocks} trades in {blocks} blocks, which come to the same; {uneven} more blocks refused"
    );
    ExitCode::SUCCESS
}

#[derive(Default)]
struct Tally {
    accepted: u64,
    lists: u64,
    calls: usize,
    refused: usize,
    expiries: u64,
    removals: u64,
    blocks: usize,
    in_blocks: usize,
    uneven: usize,
}

impl Tally {
    /// The file of a seed: its read, and its events as a list of calls.
    fn check(&mut self, seed: u64) -> Result<(), String> {
        let file = generate::file(seed);
        self.check_read(&file)?;
        let Some((contract, calls)) = lists::calls(seed, &file) else {
            return Ok(());
        };
        let Contract { lot, w, r } = contract;
        let blocks = with_blocks(seed, &calls);
        let Some(ending) = demand::run(lot, w, r, &blocks)? else {
            return Ok(());
        };
        if demand::run(lot, w, r, &singly(&calls))?.as_ref() != Some(&ending) {
            return Err("blocks and their trades written out end otherwise".to_string());
        }
        let Ending { history, .. } = ending;
        history.demand_three()?;
        history
            .prefix(seed as usize % (calls.len() + 1))
            .demand_three()?;
        self.lists += 1;
        self.calls += calls.len();
        self.add_blocks(&blocks);
        self.refused += history
            .steps
            .iter()
            .filter(|step| step.answer.is_err())
            .count();
        self.expiries += u64::from(history.has_expiry());
        self.removals += u64::from(history.has_removed_line());
        Ok(())
    }

    fn add_blocks(&mut self, calls: &[Call]) {
        for call in calls {
            match call {
                Call::Block(block) if block.is_even() => {
                    self.blocks += 1;
                    self.in_blocks += block.answers;
                }
                Call::Block(_) => self.uneven += 1,
                Call::Single(_) => {}
            }
        }
    }

    /// A refused read writes nothing; an accepted file is the writer's.
    fn check_read(&mut self, file: &[u8]) -> Result<(), String> {
        let mut lists = Lists::full();
        let reading = whole::read(file, lists.lend());
        if reading.answer.is_err() {
            let nothing = lists == Lists::full() && reading.book == Book::noughts();
            return nothing
                .then_some(())
                .ok_or("a refused read handed something out".to_string());
        }
        self.accepted += 1;
        let mut reader = Reader::new(file);
        let events: Result<Vec<_>, _> = (0..reading.place).map(|_| reader.read().event).collect();
        let (lot, w, r) = file::contract_in(file);
        let written = events.and_then(|events| file::write(lot, w, r, &events));
        match written == Ok(file.to_vec()) {
            true => Ok(()),
            false => Err("an accepted file has other bytes than the writer's".to_string()),
        }
    }
}
