//! What the papers say of the book, its calls, expiry, the file and the listing,
//! of a block of trades, of the calendar, of the last trading day, of the operands
//! by column, of the listing's byte count and of the failures that reach a grower;
//! and the explanation of all that a file comes to.

pub mod answers;
pub mod block;
pub mod book;
pub mod calendar;
pub mod calls;
pub mod columns;
pub mod expiry;
pub mod explain;
pub mod failures;
pub mod file;
pub mod label;
pub mod last_day;
pub mod listing;
pub mod refusal;
pub mod rows;
pub mod value;
