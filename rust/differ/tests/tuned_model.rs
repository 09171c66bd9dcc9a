//! The tuned model against the plain one: after each event, call and table of
//! random lists the whole state is the same.

#[path = "devices/beside.rs"]
mod beside;

use beside::Beside;
use differ::coverage::Coverage;
use differ::run::{names, run_lists};

const SEED: u64 = 3;

#[test]
fn the_tuned_models_state_is_the_plain_ones() {
    let mut coverage = Coverage::empty();
    let lists = names(SEED, 150, 0);
    let outcome = run_lists(&Beside::fresh_pair(), lists, &mut coverage);
    assert_eq!(outcome.map_err(|found| found.to_string()), Ok(()));
}
