//! The model against document 02: the sentences of each request, and the
//! boundaries of each rule.

// Not all of what the tests of document 01 need is needed here.
#[allow(dead_code)]
#[path = "../document_01/bench.rs"]
mod bench;
mod bucket_sets;
mod busy_hours;
mod calls;
mod finer_readings;
mod fresh_values;
mod kept_value;
mod old_rules;
mod rack_printout;
mod week_calls;
