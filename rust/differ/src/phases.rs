//! The phases of which the lists are made: each does one kind of thing to the
//! unit, with random details. Reversions are in `reversions`, the phases with
//! calls in `buckets` and `busy_hours`, those that load tables in `tables`.

mod buckets;
mod busy_hours;
mod reversions;
mod tables;

pub use buckets::{any_bucket_calls, bucket_levels, call_while_soaking, other_bucket_sets};
pub use busy_hours::{
    any_week_calls, busy_free_run, busy_reversion, busy_reversion_with_delay, wait_in_a_window,
};
pub use reversions::{reversion, reversion_with_delay};
pub use tables::{live_without_a_write, load_a_table, refused_tables};

use crate::device::Device;
use crate::draw;
use crate::list::{List, Step};
use model::Event;
use shared::random::Random;

fn bit(input: u8) -> u8 {
    1 << (input - 1)
}

fn any_input(random: &mut Random) -> u8 {
    random.between(1, 8) as u8
}

/// The selected reference, or any input if there is none.
fn selected_or_any<D: Device>(list: &mut List<D>) -> u8 {
    if list.unit().reference_selected() {
        list.unit().selected
    } else {
        any_input(&mut list.random)
    }
}

/// Clears the input's frequency alarm, by a measurement of either kind.
fn measure_well<D: Device>(list: &mut List<D>, input: u8) -> Step {
    let settings = list.unit().settings;
    let reading = draw::good_reading(&mut list.random, input, &settings);
    list.event(reading)
}

/// Makes the input one that will be available after a soak.
fn make_good<D: Device>(list: &mut List<D>, input: u8) -> Step {
    let mask = list.unit().settings.mask;
    list.write(0x42, mask | bit(input))?;
    measure_well(list, input)
}

/// Ticks with the lock flag set until Locked, or not if it does not come.
fn ticks_until_locked<D: Device>(list: &mut List<D>) -> Step {
    for _ in 0..120 {
        if list.unit().locked() {
            break;
        }
        list.tick(0, true)?;
    }
    Ok(())
}

pub fn lock_a_reference<D: Device>(list: &mut List<D>) -> Step {
    for _ in 0..list.random.between(1, 3) {
        let input = any_input(&mut list.random);
        make_good(list, input)?;
    }
    if list.random.one_in(3) {
        automatic_control(list)?;
    }
    ticks_until_locked(list)?;
    let more = list.random.pick(&[0, 1, 3, 127, 140]);
    list.ticks(more, true)
}

/// Automatic control, a reference Locked, the history filled until Ready and
/// perhaps a few blocks more.
pub fn become_ready<D: Device>(list: &mut List<D>) -> Step {
    list.habits.flicker = 0;
    list.write(0x40, 1)?;
    list.write(0x24, 0)?;
    let input = any_input(&mut list.random);
    make_good(list, input)?;
    ticks_until_locked(list)?;
    list.change_samples();
    while list.unit().locked() && !list.unit().ready() {
        list.tick(0, true)?;
        if list.random.one_in(1_000) {
            list.change_samples();
        }
    }
    let more = list.random.pick(&[0, 1, 127, 128, 1_000]);
    list.ticks(more, true)
}

/// From Ready into Holdover, so that no later tick leads out of it.
pub fn go_to_holdover<D: Device>(list: &mut List<D>) -> Step {
    match list.random.below(4) {
        0 => {
            list.write(0x41, 9)?;
            list.write(0x40, 0)?;
        }
        1 => list.write(0x42, 0)?,
        2 => {
            list.event(Event::Hit)?;
            list.write(0x42, 0)?;
        }
        _ => {
            list.write(0x42, 0)?;
            let input = selected_or_any(list);
            list.measure(input, -128)?;
        }
    }
    list.tick(0, false)
}

/// Ticks of any kind, and measurements, which do not lead out of Holdover as
/// long as nothing can be selected.
pub fn ticks_in_holdover<D: Device>(list: &mut List<D>, count: u32) -> Step {
    for _ in 0..count {
        if list.random.one_in(4_000) {
            let input = any_input(&mut list.random);
            let reading = draw::any_reading(&mut list.random, input);
            list.event(reading)?;
        }
        let irregular = list.random.byte() & list.random.byte();
        let lock = list.random.one_in(2);
        list.tick(irregular, lock)?;
    }
    Ok(())
}

/// Random bytes in all fields, most often of a kind that there is.
pub fn any_bytes<D: Device>(list: &mut List<D>) -> Step {
    for _ in 0..list.random.between(1, 60) {
        let fields = draw::any_fields(&mut list.random);
        list.send(fields)?;
    }
    Ok(())
}

/// Events of every kind, most of them accepted.
pub fn any_events<D: Device>(list: &mut List<D>) -> Step {
    for _ in 0..list.random.between(1, 100) {
        let random = &mut list.random;
        let address = draw::any_address(random);
        let value = draw::any_value(random, address);
        let refused = draw::out_of_range_tick(random);
        let input = random.below(10) as u8;
        let reading = draw::any_reading(random, input);
        let lock = !random.one_in(8);
        match random.below(40) {
            0 => list.event(Event::Hit)?,
            1..=4 => list.write(address, value)?,
            5..=10 => list.event(reading)?,
            11 => list.event(refused)?,
            12..=14 => list.tick(value, lock)?,
            _ => list.tick(0, lock)?,
        }
    }
    Ok(())
}

/// A run of like ticks, its length near one of the rules' counts.
pub fn same_ticks<D: Device>(list: &mut List<D>) -> Step {
    let count = list.random.pick(&[1, 2, 4, 6, 8, 16, 79, 128]);
    let count = count + list.random.below(3) - 1;
    let irregular = list.random.byte();
    let irregular = list.random.pick(&[0, 0, 0, irregular]);
    let lock = !list.random.one_in(4);
    for _ in 0..count {
        list.tick(irregular, lock)?;
    }
    Ok(())
}

pub fn other_habits<D: Device>(list: &mut List<D>) -> Step {
    let byte = list.random.byte();
    list.habits.flicker = list.random.pick(&[0, 0, 0, bit(1 + byte % 8), byte]);
    list.habits.strays = list.random.pick(&[0, 0, 20, 200]);
    list.change_samples();
    Ok(())
}

pub fn other_priorities<D: Device>(list: &mut List<D>) -> Step {
    for _ in 0..list.random.between(1, 4) {
        let address = 0x1b + selected_or_any(list);
        let any = 0x1b + any_input(&mut list.random);
        let value = list.random.byte();
        let few_priorities = value & 0x09;
        let value = list.random.pick(&[value, few_priorities]);
        let address = list.random.pick(&[address, any, any]);
        list.write(address, value)?;
    }
    list.ticks(2, true)
}

pub fn other_mask<D: Device>(list: &mut List<D>) -> Step {
    let (one, other) = (list.random.byte(), list.random.byte());
    let mask = list.random.pick(&[one, one | other, 0xff, 0x00]);
    list.write(0x42, mask)?;
    let count = list.random.between(0, 3);
    list.ticks(count, true)
}

pub fn other_delay<D: Device>(list: &mut List<D>) -> Step {
    let delay = list.random.pick(&[0, 0, 0, 1, 1, 2, 255]);
    list.write(0x43, delay)
}

pub fn other_policy<D: Device>(list: &mut List<D>) -> Step {
    let policy = list.random.below(2) as u8;
    list.write(0x25, policy)
}

/// Takes the selected reference away in one of four ways.
pub fn drop_the_selected<D: Device>(list: &mut List<D>) -> Step {
    let input = selected_or_any(list);
    match list.random.below(4) {
        0 => {
            for _ in 0..list.random.between(5, 9) {
                list.tick(bit(input), true)?;
            }
        }
        1 => {
            let mask = list.unit().settings.mask;
            list.write(0x42, mask & !bit(input))?;
        }
        2 => {
            let settings = list.unit().settings;
            let reading = draw::bad_reading(&mut list.random, input, &settings);
            list.event(reading)?;
        }
        _ => list.write(0x1b + input, 0x0f)?,
    }
    let count = list.random.pick(&[0, 1, 2, 80, 90]);
    list.ticks(count, true)
}

/// Manual control of any Op_Mode, often of an input that is or will be
/// qualified, masked or not, and its loss.
pub fn manual_control<D: Device>(list: &mut List<D>) -> Step {
    let any = list.random.below(10) as u8;
    let selected = selected_or_any(list);
    let op_mode = list.random.pick(&[any, any, selected, selected, 9, 0]);
    list.write(0x41, op_mode)?;
    list.write(0x40, 0)?;
    if !(1..=8).contains(&op_mode) {
        return list.ticks(3, false);
    }
    if list.random.one_in(2) {
        measure_well(list, op_mode)?;
    }
    if list.random.one_in(2) {
        let mask = list.unit().settings.mask;
        list.write(0x42, mask & !bit(op_mode))?;
    }
    let count = list.random.pick(&[1, 2, 80, 100]);
    list.ticks(count, true)?;
    if list.random.one_in(2) {
        drop_the_selected(list)?;
    }
    Ok(())
}

pub fn automatic_control<D: Device>(list: &mut List<D>) -> Step {
    list.write(0x40, 1)?;
    let count = list.random.below(3);
    list.ticks(count, true)
}

/// Free Run as a candidate, of any priority, revertive or not, and its end.
pub fn free_run_candidate<D: Device>(list: &mut List<D>) -> Step {
    let bits = list.random.byte() & 0x1f;
    let value = list.random.pick(&[0x10 | bits, 0x10 | bits, bits, 0]);
    list.write(0x24, value)?;
    if list.random.one_in(2) {
        automatic_control(list)?;
    }
    let count = list.random.pick(&[1, 2, 20]);
    list.ticks(count, true)
}

/// Ticks without lock until the alarm or just before it, then perhaps until it
/// ends and beyond.
pub fn lock_alarm<D: Device>(list: &mut List<D>) -> Step {
    if !list.unit().reference_selected() {
        lock_a_reference(list)?;
    }
    let count = list.random.pick(&[781, 782, 783, 800]);
    list.ticks(count, false)?;
    let count = list.random.pick(&[0, 100, 781, 782, 783, 870]);
    list.ticks(count, true)
}

/// Other limits, and measurements next to them, with fields among them that are
/// none.
pub fn frequency_limits<D: Device>(list: &mut List<D>) -> Step {
    if list.random.one_in(2) {
        let qualification = list.random.pick(&[0, 1, 24, 25, 26, 60, 120, 121]);
        let reject = qualification + list.random.between(5, 8) as u8;
        let limits = [(0x45, qualification), (0x44, reject.min(127))];
        // In one order or the other: each may be refused or not.
        let first = list.random.below(2) as usize;
        for (address, value) in [limits[first], limits[1 - first]] {
            list.write(address, value)?;
        }
    }
    for _ in 0..list.random.between(1, 12) {
        let settings = list.unit().settings;
        let any = any_input(&mut list.random);
        let selected = selected_or_any(list);
        let input = list.random.pick(&[any, selected]);
        let reading = draw::edge_reading(&mut list.random, input, &settings);
        list.event(reading)?;
        if list.random.one_in(6) {
            let fields = draw::no_reading(&mut list.random, input);
            list.send(fields)?;
        }
        let count = list.random.pick(&[0, 0, 1, 80]);
        list.ticks(count, true)?;
    }
    Ok(())
}

/// Irregular and clean ticks in turn, near the bucket's thresholds.
pub fn activity_bursts<D: Device>(list: &mut List<D>) -> Step {
    let inputs = list.random.byte() | bit(selected_or_any(list));
    for _ in 0..list.random.between(1, 6) {
        for _ in 0..list.random.between(1, 9) {
            list.tick(inputs, true)?;
        }
        let count = list.random.between(1, 10);
        list.ticks(count, true)?;
    }
    let count = list.random.pick(&[0, 80]);
    list.ticks(count, true)
}

/// Samples for up to 66 blocks more, ended by anything but Locked.
pub fn fill_history<D: Device>(list: &mut List<D>) -> Step {
    ticks_until_locked(list)?;
    for _ in 0..list.random.pick(&[1, 2, 21, 43, 66]) {
        if !list.unit().locked() {
            break;
        }
        if list.random.one_in(8) {
            list.change_samples();
        }
        list.ticks(128, true)?;
    }
    let count = list.random.pick(&[0, 1, 63, 126, 127]);
    list.ticks(count, true)
}

/// Automatic control and a switch to another reference than the last, as soon
/// as that is available; under either policy.
pub fn switch_reference<D: Device>(list: &mut List<D>) -> Step {
    list.write(0x40, 1)?;
    list.write(0x24, 0)?;
    let last = list.unit().history.last_reference.unwrap_or(0);
    let input = (last + list.random.below(7) as u8) % 8 + 1;
    make_good(list, input)?;
    list.ticks(80, true)?;
    let policy = list.random.pick(&[0, 0, 1]);
    list.write(0x25, policy)?;
    list.write(0x42, bit(input))?;
    list.ticks(1, true)
}

/// A switch, then blocks up to one of the counts at which something changes,
/// and something that may concern the building history.
pub fn switch_and_build<D: Device>(list: &mut List<D>) -> Step {
    switch_reference(list)?;
    list.change_samples();
    let blocks = list.random.pick(&[0, 1, 20, 42, 42, 43, 44, 64, 66]);
    fill_up_to(list, blocks)?;
    let more = list.random.pick(&[0, 1, 126, 127]);
    list.ticks(more, true)?;
    match list.random.below(6) {
        0 => hit(list),
        1 => other_policy(list),
        2 => drop_the_selected(list),
        3 | 4 => {
            history_commands(list)?;
            list.ticks(128, true)
        }
        _ => Ok(()),
    }
}

/// As many ticks as the blocks take that are missing to so many in the history
/// that fills, if lock stays.
fn fill_up_to<D: Device>(list: &mut List<D>, blocks: usize) -> Step {
    ticks_until_locked(list)?;
    let missing = blocks.saturating_sub(list.unit().history.filling().len());
    for _ in 0..missing {
        list.ticks(128, true)?;
    }
    Ok(())
}

pub fn history_commands<D: Device>(list: &mut List<D>) -> Step {
    for _ in 0..list.random.between(1, 3) {
        let command = list.random.pick(&[0, 1, 1, 2, 2, 2, 3]);
        list.write(0x26, command)?;
        let count = list.random.pick(&[0, 1, 130]);
        list.ticks(count, true)?;
    }
    Ok(())
}

/// A Hit, often with a reference selected; now and then when manual control
/// with Op_Mode 0 waits for its first tick.
pub fn hit<D: Device>(list: &mut List<D>) -> Step {
    if !list.unit().reference_selected() {
        ticks_until_locked(list)?;
    }
    if list.random.one_in(3) {
        list.write(0x40, 0)?;
        list.write(0x41, 0)?;
    }
    list.event(Event::Hit)?;
    let count = list.random.pick(&[0, 1, 5, 79, 80]);
    list.ticks(count, true)
}
