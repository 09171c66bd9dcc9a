//! The ticks: every place of the week, the week's end, and the wait in a window.

use crate::beside::Beside;
use crate::reversion::{reverting_device, selected, take, tick_of_switch, TICK};
use crate::{reverting, windows, EIGHT, OTHER, R, WEEK};
use differ::device::Device;
use model::{wait_limit, Call, Unit};

/// A reversion in each place of the week: it is done, or blocked where the place
/// is in a window.
fn check_every_place<D: Device>(make: &D) {
    let mut device = reverting_device(make, 0);
    let (count, numbers) = (8, EIGHT);
    take(&mut device, Call::SetWindows { count, numbers });
    let mut blocked = vec![false; WEEK as usize];
    for pair in EIGHT.chunks(2) {
        blocked[pair[0] as usize..pair[1] as usize].fill(true);
    }
    for (place, blocked) in (0..).zip(blocked) {
        let mut device = device.clone();
        take(&mut device, Call::SetWeek { place });
        take(&mut device, TICK);
        let expected = if blocked { OTHER } else { R };
        assert_eq!(selected(&device), expected, "place {}", place);
    }
}

#[test]
fn every_place_of_the_week() {
    check_every_place(&Unit::fresh());
    #[cfg(feature = "controller")]
    check_every_place(&controller::Unit::fresh());
}

/// "A week is 4,725,000 ticks": a window of all ticks but one is waited out, the
/// whole state compared after each.
fn check_whole_week<D: Device>(make: &D) {
    let mut device = reverting_device(make, 0);
    take(&mut device, windows(&[(0, WEEK - 1)]));
    take(&mut device, Call::SetWeek { place: 0 });
    assert_eq!(tick_of_switch(device, WEEK), Some(WEEK));
}

#[test]
fn a_window_of_a_week_but_one_tick() {
    check_whole_week(&Beside::fresh_pair());
    #[cfg(feature = "controller")]
    check_whole_week(&crate::inspected::Inspected::fresh_pair());
}

/// The place after each tick near the week's end, by a window of one tick that
/// is put at each in turn.
fn check_weeks_end<D: Device>(make: &D) {
    for ticks in 0..8 {
        for place in (WEEK - 6..WEEK).chain(0..6) {
            let mut bench = reverting(make, 0);
            bench.set_week(WEEK - 4);
            bench.write(0x42, 0xfe);
            bench.clean_ticks(ticks);
            bench.write(0x42, 0xff);
            bench.set_windows(&[(place, place + 1)]);
            bench.clean_ticks(1);
            let blocked = (WEEK - 4 + ticks) % WEEK == place;
            let expected = if blocked { OTHER } else { R };
            assert_eq!(bench.unit().selected, expected, "{} {}", ticks, place);
        }
    }
}

#[test]
fn the_weeks_end() {
    ask_all!(check_weeks_end);
}

/// "meanwhile the wait rises only if it is below n + 1": under each of the 256
/// delays the wait ends in a window, and the switch comes in the first tick
/// after it.
fn check_delays<D: Device>(make: &D) {
    for delay in 0..=255 {
        let mut device = reverting_device(make, delay);
        let blocked = wait_limit(delay) + 6;
        take(&mut device, windows(&[(0, blocked)]));
        take(&mut device, Call::SetWeek { place: 0 });
        let free = blocked + 1;
        let found = tick_of_switch(device, free);
        assert_eq!(found, Some(free), "delay {}", delay);
    }
}

#[test]
fn each_delay_in_a_window() {
    check_delays(&Beside::fresh_pair());
    #[cfg(feature = "controller")]
    check_delays(&controller::Unit::fresh());
}

/// The longest wait is n + 1 = 119,533; a longer one is not reached, a shorter
/// delay leaves it as it is, and another best begins with 1.
fn check_longest_wait<D: Device>(make: &D) {
    let mut bench = reverting(make, 255);
    bench.set_week(0);
    bench.set_windows(&[(0, 1_000_000)]);
    bench.clean_ticks(119_532);
    assert_eq!(bench.unit().wait.ticks, 119_532);
    for _ in 0..3 {
        bench.clean_ticks(1);
        assert_eq!(bench.unit().wait.ticks, 119_533);
    }
    bench.write(0x43, 1);
    bench.clean_ticks(10);
    assert_eq!(bench.unit().wait.ticks, 119_533);
    // R falls behind Free Run.
    bench.write(0x1b + R, 0x0f);
    bench.write(0x24, 0x10);
    bench.clean_ticks(2);
    assert_eq!((bench.unit().wait.ticks, bench.unit().wait.best), (2, 9));
    bench.set_windows(&[]);
    bench.expect_selected(9, wait_limit(1) - 1);
}

#[test]
fn the_longest_wait() {
    ask_all!(check_longest_wait);
}

/// What no call stores: a place past the week's end comes back to 0 with the next
/// tick, and a pair whose start is not before its end is no window.
#[test]
#[cfg(feature = "controller")]
fn other_stored_weeks() {
    let device = reverting_device(&controller::Unit::fresh(), 0);
    for place in [WEEK - 1, WEEK, WEEK + 1, u32::MAX - 1, u32::MAX] {
        let mut device = device;
        device.core.place = place;
        take(&mut device, TICK);
        assert_eq!((device.core.place, selected(&device)), (0, R), "{}", place);
    }
    for (start, end) in [(5, 5), (6, 5), (9, 1), (u32::MAX, 0), (u32::MAX, 9)] {
        for place in 0..10 {
            let mut device = device;
            device.core.place = place;
            device.windows[6..8].copy_from_slice(&[start, end]);
            take(&mut device, TICK);
            assert_eq!(selected(&device), R, "{:?} at {}", (start, end), place);
        }
    }
}
