//! The reversion of each of the 256 delays in a sheet, run and printed: input 1
//! is selected in the record of tick n + 1 of the wait, and in none before it.
//! A sheet has room for the waits of the delays 0 to 17; with a longer delay
//! input 2 stays selected to the last record. In the differ, a test of the same
//! name has all waits to their end, event by event, and compares n with its rule.

use model::{pages_of, sheet_of, wait_limit, Event, BYTES_PER_PAGE, BYTES_PER_RECORD, SOAK_TICKS};
#[cfg(feature = "sheets")]
use sheets_differ::runner::CONTROLLER;
use sheets_differ::runner::{Runner, MODEL, TUNED_MODEL};

/// As many as a sheet with four settings has room for.
const EVENTS: usize = 8_190;
const RECORDS: usize = 4 + EVENTS;
const SOAK: usize = SOAK_TICKS as usize;
/// The records before the wait: settings, two measurements, a soak, a write.
const BEFORE: usize = 4 + 2 + SOAK + 1;
/// The longest delay whose wait ends in a sheet. The switch comes in tick 7,970
/// of the 8,108 that there are; with the next delay it would in tick 8,439.
const LONGEST_DELAY: u8 = 17;

/// Automatic control, inputs 1 and 2 measured good and qualified; 2 alone was
/// usable and is selected, revertive; then 1 is usable too, and the wait begins.
/// The lock flags are set, so that no lock alarm comes.
fn reverting(delay: u8) -> Vec<u8> {
    let settings = [(0x40, 1), (0x42, 0xfe), (0x1d, 0x08), (0x43, delay)];
    let (mask, lock, sample) = (0, true, 0);
    let tick = Event::Tick { mask, lock, sample };
    let mut events = vec![tick; EVENTS];
    let measured = [1, 2].map(|input| Event::Measurement { input, offset: 0 });
    events[..2].copy_from_slice(&measured);
    let (address, value) = (0x42, 0xff);
    events[2 + SOAK] = Event::Write { address, value };
    sheet_of(&settings, &events)
}

fn run<R: Runner>(runner: &R, sheet: &[u8]) -> Vec<u8> {
    let mut records = vec![0; BYTES_PER_RECORD * RECORDS];
    assert_eq!(runner.run(sheet, &mut records), records.len());
    records
}

fn print<R: Runner>(runner: &R, sheet: &[u8]) -> Vec<u8> {
    let mut records = vec![0; BYTES_PER_RECORD * RECORDS];
    let mut pages = vec![0; BYTES_PER_PAGE * pages_of(RECORDS)];
    assert_eq!(runner.print(sheet, &mut records, &mut pages), 0);
    records
}

/// How many ticks of the wait left input 2 selected, and what the next one
/// selected.
fn switch(records: &[u8]) -> Option<(u32, u8)> {
    let records = records.chunks(BYTES_PER_RECORD).skip(BEFORE);
    let selected = records.map(|record| record[1] & 0x0f);
    (0..).zip(selected).find(|&(_, selected)| selected != 2)
}

fn assert_reversions<R: Runner>(runner: &R) {
    for delay in 0..=255 {
        let sheet = reverting(delay);
        let ends = delay <= LONGEST_DELAY;
        let expected = ends.then(|| (wait_limit(delay), 1));
        for records in [run(runner, &sheet), print(runner, &sheet)] {
            assert_eq!(switch(&records), expected, "delay {}", delay);
        }
    }
}

#[test]
#[cfg(feature = "sheets")]
fn the_controllers_sheets_revert_in_time() {
    assert_reversions(&CONTROLLER);
}

#[test]
fn the_models_sheets_revert_in_time() {
    assert_reversions(&MODEL);
    assert_reversions(&TUNED_MODEL);
}
