//! The wheat delivery book, read from its papers: the contract
//! specification (001), the method of choosing parties at delivery (000) and
//! document 01, which condenses both; and the requests of document 02 that are
//! met. Quotations in the comments are document 01's sentences unless another
//! paper is named.

pub mod reading;
pub mod trial;
