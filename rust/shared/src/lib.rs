//! What the programs here share: random numbers, runs of equal neighbours, lists
//! made shorter, and a program's options. No rule of document 01 is in it.

#![forbid(unsafe_code)]

pub mod leave_out;
pub mod options;
pub mod random;
pub mod runs;
