//! An input for a program, and how it is given.

use super::generate;
use super::running::{Answer, answer, answer_to_pieces, both_answers};
use std::path::Path;

/// The bytes of a piece that goes through a pipe.
const PIECE: usize = 700;

/// An input, and whether it comes through a pipe in pieces.
pub struct Input {
    pub name: String,
    pub bytes: Vec<u8>,
    pub in_pieces: bool,
}

impl Input {
    pub(super) fn new(name: impl Into<String>, bytes: Vec<u8>) -> Input {
        Input {
            name: name.into(),
            bytes,
            in_pieces: false,
        }
    }

    /// The generator's file of a seed.
    pub(super) fn of_seed(seed: u64) -> Input {
        let name = format!("seed {seed} ({:?})", generate::kind(seed));
        Input::new(name, generate::file(seed))
    }

    /// What a program, with these arguments, answers to it.
    pub fn given_to(
        &self,
        program: &str,
        arguments: &[&str],
        folder: &Path,
    ) -> Result<Answer, String> {
        match self.in_pieces {
            true => answer_to_pieces(program, arguments, &self.bytes, PIECE),
            false => answer(program, arguments, &self.bytes, folder),
        }
    }

    /// What two programs answer to it.
    pub fn given_to_both(
        &self,
        [one, other]: [&str; 2],
        folder: &Path,
    ) -> Result<[Answer; 2], String> {
        match self.in_pieces {
            true => Ok([
                self.given_to(one, &[], folder)?,
                self.given_to(other, &[], folder)?,
            ]),
            false => both_answers([one, other], &self.bytes, folder),
        }
    }
}
