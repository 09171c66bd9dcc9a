//! The phases of #105: units made anew from a table, and tables that do not
//! load.

use super::{activity_bursts, any_input, fill_up_to, measure_well, ticks_until_locked};
use crate::device::Device;
use crate::draw;
use crate::list::{List, Step};
use model::{wait_limit, Call, Window, BLOCKS_FOR_READY};

/// Whether the unit is not made anew now: it takes long until one is Ready.
fn spared<D: Device>(list: &mut List<D>) -> bool {
    list.unit().ready() && !list.random.one_in(4)
}

/// A table that loads, and a few ticks.
pub fn load_a_table<D: Device>(list: &mut List<D>) -> Step {
    if spared(list) {
        return refused_tables(list);
    }
    let table = draw::table(&mut list.random);
    list.load(table)?;
    let count = list.random.pick(&[0, 1, 2, 80]);
    list.ticks(count, true)
}

/// Tables that do not load, wherever the list stands, with a few ticks between.
pub fn refused_tables<D: Device>(list: &mut List<D>) -> Step {
    for _ in 0..list.random.between(1, 6) {
        let table = draw::refused_table(&mut list.random);
        list.load(table)?;
        let count = list.random.below(3);
        list.ticks(count, true)?;
    }
    Ok(())
}

/// A unit that lives without a write: references are measured, one is locked
/// to, and perhaps lost; another may come, and be waited for. The windows of the
/// unit before it play no part, nor do the blocks that it had built.
pub fn live_without_a_write<D: Device>(list: &mut List<D>) -> Step {
    if spared(list) {
        return refused_tables(list);
    }
    if list.random.one_in(2) {
        list.send(Call::windows(&[Window::of(0, 100_000)]))?;
    }
    let built = list.unit().history.built();
    let table = draw::waking_table(&mut list.random);
    list.load(table)?;
    let manual = table.value(0x41);
    for _ in 0..list.random.between(1, 4) {
        let any = any_input(&mut list.random);
        let input = list.random.pick(&[any, any, manual]);
        measure_well(list, input)?;
        let count = list.random.pick(&[0, 0, 1, 90]);
        list.ticks(count, true)?;
    }
    ticks_until_locked(list)?;
    for _ in 0..list.random.below(3) {
        activity_bursts(list)?;
    }
    if list.random.one_in(2) {
        let input = any_input(&mut list.random);
        measure_well(list, input)?;
        let count = 79 + wait_limit(list.unit().settings.delay) + list.random.below(3);
        list.ticks(count, true)?;
    }
    match built > 0 {
        true => fill_up_to(list, BLOCKS_FOR_READY - built),
        false => Ok(()),
    }
}
