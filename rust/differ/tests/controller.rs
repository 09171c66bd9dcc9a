//! The real controller against the model: answers over a base seed of its own,
//! and the fields of the state it shares with its host.
#![cfg(feature = "controller")]

#[path = "devices/inspected.rs"]
mod inspected;

use differ::coverage::Coverage;
use differ::device::Device;
use differ::run::{names, run_lists};
use inspected::Inspected;

const SEED: u64 = 2;

fn find_difference<D: Device>(make: &D, lists: u32) -> Result<(), String> {
    let mut coverage = Coverage::empty();
    let outcome = run_lists(make, names(SEED, lists, 0), &mut coverage);
    outcome.map_err(|difference| difference.to_string())
}

#[test]
fn the_controller_answers_as_the_model() {
    assert_eq!(find_difference(&controller::Unit::fresh(), 300), Ok(()));
}

#[test]
fn the_controllers_fields_are_the_models() {
    assert_eq!(find_difference(&Inspected::fresh_pair(), 150), Ok(()));
}
