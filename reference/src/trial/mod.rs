//! Generated files and rows, what they reach, demand 3 over lists of calls, and
//! files and rows held against a program.

pub mod calls;
pub mod columns;
pub mod demand;
pub mod examples;
pub mod explain;
pub mod failures;
pub mod generate;
pub mod hand;
pub mod input;
pub mod label;
pub mod random;
pub mod reach;
pub mod removal;
pub mod rows;
pub mod running;
