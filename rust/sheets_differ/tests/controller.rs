//! The real controller's run sheets against the model, over a base seed of its
//! own, and its pages where a page begins or ends.
#![cfg(feature = "sheets")]

use shared::random::Random;
use sheets_differ::compare::{Against, Given};
use sheets_differ::coverage::Coverage;
use sheets_differ::damage::damages;
use sheets_differ::run::{names, run_sheets};
use sheets_differ::runner::{Functions, CONTROLLER};
use sheets_differ::sheet::small;

const SEED: u64 = 2;
const AGAINST: Against<Functions> = Against {
    runner: &CONTROLLER,
    rack: None,
};

#[test]
fn the_controller_runs_sheets_as_the_model() {
    let damages = damages();
    let mut coverage = Coverage::empty(&damages);
    let outcome = run_sheets(&AGAINST, names(SEED, 1_000), &damages, &mut coverage);
    assert_eq!(outcome.map_err(|difference| difference.to_string()), Ok(()));
    assert_eq!(coverage.missing(false), Vec::<String>::new());
}

/// 0, 1, 49, 50, 51, 100 and 8,383 records: both outputs as long as they need
/// to be, one byte shorter, and longer.
#[test]
fn the_controller_prints_pages_as_the_model() {
    let mut random = Random::new(SEED);
    let counts = [
        (0, 0),
        (0, 1),
        (1, 48),
        (2, 48),
        (1, 50),
        (3, 97),
        (256, 8_127),
    ];
    for (settings, events) in counts {
        for _ in 0..20 {
            let mut coverage = Coverage::empty(&[]);
            let sheet = small(&mut random).resized(settings, events).bytes;
            let outcome = AGAINST.compare_prints(&mut random, &Given::of(&sheet), &mut coverage);
            assert_eq!(outcome.map_err(|mismatch| mismatch.to_string()), Ok(()));
            // Without records no output is one byte short.
            let prints = if settings + events > 0 { 14 } else { 7 };
            assert_eq!(coverage.pages.prints(), prints);
        }
    }
}
