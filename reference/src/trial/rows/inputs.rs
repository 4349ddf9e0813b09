//! The inputs in which rows are given to a program.

use super::always::always;
use crate::trial::input::Input;

/// The most rows of one input.
const TOGETHER: usize = 10_000;
/// The first rows, every form among them, are given in inputs of their own too.
const ALONE: usize = 400;

/// All rows together; then the first ones in pieces and alone; then the inputs
/// that are always given.
pub fn inputs(rows: &[Vec<u8>]) -> Vec<Input> {
    let together = rows.chunks(TOGETHER).enumerate();
    let mut inputs: Vec<Input> = together
        .map(|(place, some)| {
            let before = place * TOGETHER;
            let name = format!("rows {} to {}", before + 1, before + some.len());
            Input::new(name, ended(some))
        })
        .collect();
    let first = &rows[..rows.len().min(ALONE)];
    inputs.push(Input {
        in_pieces: true,
        ..Input::new("the first rows in pieces", first.join(&10))
    });
    for (place, row) in first.iter().enumerate() {
        let name = format!("row {} without its end byte", place + 1);
        inputs.push(Input::new(name, row.clone()));
    }
    inputs.extend(always());
    inputs
}

/// The rows, each with its end byte.
pub(super) fn ended(rows: &[Vec<u8>]) -> Vec<u8> {
    rows.iter()
        .flat_map(|row| [row, &[10][..]].concat())
        .collect()
}
