//! The model against document 01: its marked trials and example, each refusal,
//! and the boundaries of each rule.

mod bench;
mod history;
mod marked_trials;
mod monitors;
mod pll;
mod refusals;
mod registers;
mod selection;
mod sheets;
