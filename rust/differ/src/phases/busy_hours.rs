//! The phases of #107: places and windows that are set, and reversions whose
//! switch would come in a window or next to one.

use super::reversions::{come_back, interrupt_wait, selected_alone};
use super::{any_input, bit, hit, load_a_table, make_good};
use crate::device::Device;
use crate::draw;
use crate::list::{List, Step};
use model::{wait_limit, Call, Window, TICKS_PER_WEEK};

/// So many ticks a window is waited out at most.
const MOST_TICKS: u32 = 700;

/// Calls with places and windows, many of them refused, with a few ticks
/// between.
pub fn any_week_calls<D: Device>(list: &mut List<D>) -> Step {
    for _ in 0..list.random.between(1, 8) {
        let random = &mut list.random;
        let place = draw::place(random);
        let calls = [
            draw::any_week_call(random),
            draw::refused_week_call(random),
            draw::windows_call(random, place),
            Call::SetWeek { place },
        ];
        let call = random.pick(&calls);
        list.send(call)?;
        let count = list.random.below(4);
        list.ticks(count, true)?;
    }
    perhaps_without_windows(list)
}

pub fn busy_reversion<D: Device>(list: &mut List<D>) -> Step {
    let delay = list.random.pick(&[0, 0, 0, 1, 1, 2]);
    busy_reversion_with_delay(list, delay)
}

/// A reversion whose switch would come in a window or next to one; meanwhile
/// something may happen that concerns the wait, the selected one or the windows.
pub fn busy_reversion_with_delay<D: Device>(list: &mut List<D>, delay: u8) -> Step {
    let inputs = [0; 3].map(|_: u8| any_input(&mut list.random));
    selected_alone(list, inputs, delay)?;
    busy_hours_ahead(list)?;
    come_back(list, inputs[1])?;
    let until_switch = wait_limit(delay) + list.random.below(4);
    list.ticks(until_switch.saturating_sub(1), true)?;
    for _ in 0..list.random.below(4) {
        in_a_window(list, inputs[2])?;
        let count = list.random.pick(&[0, 1, 1, 2, 20]);
        list.ticks(count, true)?;
    }
    ticks_until_free(list)?;
    perhaps_without_windows(list)
}

/// A wait in a long window, in which the delay, the best and the place may
/// change; then the window is taken away, and the tick of the switch shows what
/// the wait was.
pub fn wait_in_a_window<D: Device>(list: &mut List<D>) -> Step {
    let first = any_input(&mut list.random);
    let inputs = [first, first % 8 + 1, (first + 3) % 8 + 1];
    let delay = list.random.below(3) as u8;
    selected_alone(list, inputs, delay)?;
    for (input, byte) in inputs.into_iter().zip([0x0f, 3, 1]) {
        list.write(0x1b + input, byte)?;
    }
    list.set_week(0)?;
    list.send(Call::windows(&[Window::of(0, 10_000)]))?;
    let both = bit(inputs[0]) | bit(inputs[1]);
    list.write(0x42, both)?;
    let n = wait_limit(delay);
    let waited = [n + list.random.below(4), list.random.below(n + 1)];
    let waited = list.random.pick(&waited);
    list.ticks(waited, true)?;
    for _ in 0..list.random.below(3) {
        let other_delay = list.random.below(3) as u8;
        let mask = list.random.pick(&[both, both, both | bit(inputs[2])]);
        let place = list.random.below(3_000);
        let place = list.random.pick(&[place, place, 10_000]);
        match list.random.below(6) {
            0 => list.set_week(place)?,
            1 | 2 => list.write(0x42, mask)?,
            _ => list.write(0x43, other_delay)?,
        }
        let count = list.random.pick(&[0, 1, 2, 30, 475]);
        list.ticks(count, true)?;
    }
    let last_delay = list.random.pick(&[delay, delay, 2]);
    if !list.random.one_in(4) {
        list.write(0x43, last_delay)?;
    }
    list.send(Call::windows(&[]))?;
    let rest = wait_limit(list.unit().settings.delay) + 2;
    list.ticks(rest, true)
}

/// A reversion to Free Run and one from it, each with windows where its switch
/// would come.
pub fn busy_free_run<D: Device>(list: &mut List<D>) -> Step {
    let input = any_input(&mut list.random);
    let delay = list.random.pick(&[0, 0, 0, 1]);
    selected_alone(list, [input; 3], delay)?;
    list.write(0x1b + input, 0x0f)?;
    busy_hours_ahead(list)?;
    let revertive = list.random.pick(&[0x08, 0x08, 0x00]);
    list.write(0x24, 0x10 | revertive | 3)?;
    wait_out(list, delay)?;
    if list.random.one_in(3) {
        list.write(0x42, 0)?;
        list.ticks(1, true)?;
    }
    if list.random.one_in(4) {
        lose_free_run(list)?;
    }
    busy_hours_ahead(list)?;
    list.write(0x1b + input, 0x00)?;
    make_good(list, input)?;
    wait_out(list, delay)?;
    if list.random.one_in(2) {
        lose_free_run(list)?;
    }
    ticks_until_free(list)?;
    list.write(0x24, 0)?;
    perhaps_without_windows(list)
}

/// Free Run is no candidate any more, perhaps in a window and for a tick alone.
fn lose_free_run<D: Device>(list: &mut List<D>) -> Step {
    let (place, byte) = (list.unit().week.place, list.unit().settings.free_run);
    let windows = draw::windows_call(&mut list.random, place);
    list.send(windows)?;
    list.write(0x24, byte & 0x0f)?;
    list.ticks(1, true)?;
    match list.random.one_in(2) {
        true => list.write(0x24, byte),
        false => Ok(()),
    }
}

/// The ticks of the wait and some more; now and then the windows' ticks too.
fn wait_out<D: Device>(list: &mut List<D>, delay: u8) -> Step {
    let count = wait_limit(delay) + list.random.below(4);
    list.ticks(count, true)?;
    match list.random.one_in(2) {
        true => ticks_until_free(list),
        false => Ok(()),
    }
}

/// Windows where the switch comes if the wait begins with the tick after this,
/// often at the week's end; the place is set for it, or is left as it stands.
fn busy_hours_ahead<D: Device>(list: &mut List<D>) -> Step {
    let lead = list.random.pick(&[0, 0, 3, 60]);
    let ahead = lead + wait_limit(list.unit().settings.delay);
    let stands = list.unit().week.place;
    let other = (draw::place(&mut list.random) + TICKS_PER_WEEK - ahead) % TICKS_PER_WEEK;
    let place = list.random.pick(&[stands, other, other]);
    let switch = (place + ahead) % TICKS_PER_WEEK;
    let windows = draw::windows_call(&mut list.random, switch);
    if place != stands {
        list.set_week(place)?;
    }
    list.send(windows)?;
    list.ticks(lead, true)
}

/// Something that happens while a switch may be blocked; the input is one that
/// is not waited for yet.
fn in_a_window<D: Device>(list: &mut List<D>, input: u8) -> Step {
    let settings = list.unit().settings;
    let selected = list.unit().selected;
    let place = list.unit().week.place;
    match list.random.below(18) {
        0 if (1..=8).contains(&selected) => {
            list.write(0x42, settings.mask & !bit(selected))?;
            list.ticks(1, true)
        }
        1 if (1..=8).contains(&selected) => {
            let reading = draw::bad_reading(&mut list.random, selected, &settings);
            list.event(reading)?;
            list.ticks(1, true)
        }
        2..=5 => other_delay_for_a_while(list),
        6 | 7 => {
            list.write(0x42, settings.mask | bit(input))?;
            list.write(0x1b + input, 0)
        }
        8 => other_place(list),
        9 => {
            let call = draw::windows_call(&mut list.random, place);
            list.send(call)
        }
        10 => list.send(Call::windows(&[])),
        11 => {
            let refused = draw::out_of_range_tick(&mut list.random);
            list.event(refused)
        }
        12 => interrupt_wait(list),
        13 => hit(list),
        14 => load_a_table(list),
        15 | 16 => manual_for_a_while(list, input),
        _ => {
            let call = draw::refused_week_call(&mut list.random);
            list.send(call)
        }
    }
}

/// Manual control for a tick or two, most often of an input that is qualified.
fn manual_for_a_while<D: Device>(list: &mut List<D>, input: u8) -> Step {
    let op_mode = list.random.pick(&[input, input, input, 9, 0]);
    list.write(0x41, op_mode)?;
    list.write(0x40, 0)?;
    let count = list.random.between(1, 2);
    list.ticks(count, true)?;
    list.write(0x40, 1)
}

/// A longer or shorter delay for some ticks, then most often the one before:
/// what the wait has become meanwhile shows in the tick of the switch.
fn other_delay_for_a_while<D: Device>(list: &mut List<D>) -> Step {
    let delay = list.unit().settings.delay;
    let other = list.random.below(3) as u8;
    list.write(0x43, other)?;
    let count = list.random.pick(&[1, 2, 20, 475]);
    list.ticks(count, true)?;
    match list.random.one_in(3) {
        true => Ok(()),
        false => list.write(0x43, delay),
    }
}

/// Another place, often next to where a window starts or ends.
fn other_place<D: Device>(list: &mut List<D>) -> Step {
    let mut places = vec![draw::place(&mut list.random)];
    for window in &list.unit().week.windows {
        let next_to = [window.start, window.end, window.end - 1];
        places.extend(next_to.map(|place| place % TICKS_PER_WEEK));
    }
    let place = list.random.pick(&places);
    list.set_week(place)
}

/// Ticks up to the window's end, if that comes soon, and a few more.
fn ticks_until_free<D: Device>(list: &mut List<D>) -> Step {
    for _ in 0..MOST_TICKS {
        if !list.unit().week.busy() {
            break;
        }
        list.tick(0, true)?;
    }
    let count = list.random.below(4);
    list.ticks(count, true)
}

/// Most often no windows again: what follows is not blocked.
fn perhaps_without_windows<D: Device>(list: &mut List<D>) -> Step {
    match list.random.one_in(3) {
        true => Ok(()),
        false => list.send(Call::windows(&[])),
    }
}
