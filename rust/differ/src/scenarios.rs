//! How a list is made: what it begins with, and the mixing of the phases.

use crate::device::Device;
use crate::list::{List, Step};
use crate::phases::*;
use model::TICKS_PER_HOUR;

type Phase<'a, D> = fn(&mut List<'a, D>) -> Step;

/// The phases with their weights. Each begins in whatever state the one before
/// it has left.
fn phases<'a, D: Device>() -> Vec<(u32, Phase<'a, D>)> {
    let mut phases = event_phases();
    phases.extend(call_phases());
    phases.extend(table_phases());
    phases
}

/// Those that load tables, or try to.
fn table_phases<'a, D: Device>() -> [(u32, Phase<'a, D>); 3] {
    [
        (2, load_a_table),
        (2, live_without_a_write),
        (3, refused_tables),
    ]
}

/// Those with calls.
fn call_phases<'a, D: Device>() -> [(u32, Phase<'a, D>); 8] {
    [
        (3, any_bucket_calls),
        (4, other_bucket_sets),
        (5, bucket_levels),
        (3, call_while_soaking),
        (3, any_week_calls),
        (9, busy_reversion),
        (4, busy_free_run),
        (5, wait_in_a_window),
    ]
}

/// Those with events alone, as a sheet can hold them.
fn event_phases<'a, D: Device>() -> Vec<(u32, Phase<'a, D>)> {
    vec![
        (10, lock_a_reference),
        (6, any_bytes),
        (6, any_events),
        (6, same_ticks),
        (5, other_habits),
        (8, other_priorities),
        (5, other_mask),
        (3, other_delay),
        (3, other_policy),
        (8, drop_the_selected),
        (6, manual_control),
        (5, automatic_control),
        (5, free_run_candidate),
        (2, lock_alarm),
        (5, frequency_limits),
        (5, activity_bursts),
        (3, fill_history),
        (6, history_commands),
        (3, switch_reference),
        (4, hit),
        (6, reversion),
    ]
}

/// What a list of mixed phases begins with.
#[derive(Clone, Copy)]
enum Start {
    Anyhow,
    Bytes,
    Ready,
    Switches,
    AnHourOfHoldover,
    LongWait,
}

/// The beginnings with their weights, and how many events at least a list with
/// this beginning has.
const STARTS: [(u32, (Start, u64)); 7] = [
    (10, (Start::Anyhow, 600)),
    (10, (Start::Anyhow, 4_000)),
    (2, (Start::Bytes, 600)),
    (8, (Start::Ready, 12_000)),
    (3, (Start::Switches, 40_000)),
    (1, (Start::AnHourOfHoldover, 40_000)),
    (1, (Start::LongWait, 5_000)),
];

/// A list of mixed phases. One in three begins with a table.
pub fn mixed_list<D: Device>(list: &mut List<D>) -> Step {
    list.read_all()?;
    other_habits(list)?;
    if list.random.one_in(3) {
        load_a_table(list)?;
        list.read_all()?;
    }
    let (start, length) = list.random.weighted(&STARTS);
    match start {
        Start::Anyhow => {}
        Start::Bytes => {
            while list.sent() < length {
                any_bytes(list)?;
            }
        }
        Start::Ready => become_ready(list)?,
        Start::Switches => {
            become_ready(list)?;
            while list.sent() < length {
                switch_and_build(list)?;
            }
        }
        Start::AnHourOfHoldover => {
            become_ready(list)?;
            go_to_holdover(list)?;
            let around_an_hour = TICKS_PER_HOUR as u32 + list.random.below(5);
            ticks_in_holdover(list, around_an_hour)?;
        }
        Start::LongWait => {
            let any = list.random.between(3, 255) as u8;
            let delay = list.random.pick(&[any, 255]);
            match list.random.one_in(2) {
                true => reversion_with_delay(list, delay)?,
                false => busy_reversion_with_delay(list, delay)?,
            }
        }
    }
    mix_phases(list, length)?;
    list.read_all()
}

/// A list with a Holdover of more than 256 hours, and mixed phases after it.
pub fn long_list<D: Device>(list: &mut List<D>) -> Step {
    list.read_all()?;
    become_ready(list)?;
    go_to_holdover(list)?;
    let hours = 256 * TICKS_PER_HOUR as u32 + list.random.below(100);
    ticks_in_holdover(list, hours)?;
    list.read_all()?;
    let length = list.sent() + 2_000;
    mix_phases(list, length)?;
    list.read_all()
}

/// Phases until this many events, calls and tables are sent.
fn mix_phases<D: Device>(list: &mut List<D>, length: u64) -> Step {
    mix(list, &phases(), length)
}

/// Phases with events alone, until this many are sent.
pub fn mix_events<D: Device>(list: &mut List<D>, length: u64) -> Step {
    mix(list, &event_phases(), length)
}

fn mix<'a, D: Device>(list: &mut List<'a, D>, phases: &[(u32, Phase<'a, D>)], length: u64) -> Step {
    while list.sent() < length {
        let phase = list.random.weighted(phases);
        phase(list)?;
    }
    Ok(())
}
