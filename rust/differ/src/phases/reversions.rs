//! The phases with reversions: a better input comes back, and is waited for.

use super::{any_input, bit, make_good, selected_or_any};
use crate::device::Device;
use crate::list::{List, Step};
use model::wait_limit;

pub fn reversion<D: Device>(list: &mut List<D>) -> Step {
    let delay = list.random.pick(&[0, 1, 1, 2]);
    reversion_with_delay(list, delay)
}

/// Three inputs, which may be the same, made good; the first of them is alone
/// usable and selected, most often revertive, with this delay.
pub fn selected_alone<D: Device>(list: &mut List<D>, inputs: [u8; 3], delay: u8) -> Step {
    list.write(0x40, 1)?;
    list.write(0x24, 0)?;
    for input in inputs {
        make_good(list, input)?;
    }
    list.ticks(80, true)?;
    let selected = inputs[0];
    list.write(0x42, bit(selected))?;
    list.ticks(1, true)?;
    list.write(0x43, delay)?;
    let byte = list.random.pick(&[0x08, 0x09, 0x0f, 0x0f, 0x07]);
    list.write(0x1b + selected, byte)
}

/// An input that is usable again, and often better than the selected one.
pub fn come_back<D: Device>(list: &mut List<D>, better: u8) -> Step {
    let mask = list.unit().settings.mask;
    let priority = list.random.below(4) as u8;
    list.write(0x1b + better, priority)?;
    list.write(0x42, mask | bit(better))
}

/// A reversion: the selected one is alone, then better ones come back; while
/// the wait runs the best may change, or something interrupts the wait.
pub fn reversion_with_delay<D: Device>(list: &mut List<D>, delay: u8) -> Step {
    let inputs = [0; 3].map(|_: u8| any_input(&mut list.random));
    selected_alone(list, inputs, delay)?;
    for better in [inputs[1], inputs[2]] {
        come_back(list, better)?;
        let part = list.random.below(wait_limit(delay).min(1_000) + 1);
        list.ticks(part, true)?;
    }
    interrupt_wait(list)?;
    let rest = wait_limit(delay) + list.random.below(3);
    list.ticks(rest, true)
}

/// Something that may or may not restart a running wait.
pub fn interrupt_wait<D: Device>(list: &mut List<D>) -> Step {
    let selected = selected_or_any(list);
    let settings = list.unit().settings;
    let own_byte = settings.inputs[usize::from(selected) - 1];
    let ticks = list.random.below(2);
    let delay = list.random.below(3) as u8;
    // Registers with another value for a tick or none, then as they were.
    let for_a_while = match list.random.below(7) {
        0 => vec![(0x41, selected, settings.op_mode), (0x40, 0, 1)],
        1 => vec![(0x1b + selected, own_byte ^ 0x08, own_byte)],
        2 => vec![(0x1b + selected, 0, own_byte)],
        3 => vec![(0x42, bit(selected), settings.mask)],
        4 => vec![(0x42, settings.mask & !bit(selected), settings.mask)],
        5 => vec![(0x24, 0x10, 0)],
        _ => vec![(0x43, delay, settings.delay)],
    };
    for &(address, value, _) in &for_a_while {
        list.write(address, value)?;
    }
    list.ticks(ticks, true)?;
    for &(address, _, value) in &for_a_while {
        list.write(address, value)?;
    }
    Ok(())
}
