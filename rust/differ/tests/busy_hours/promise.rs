//! The promise of service with windows: how many ticks a good clock waits.

use crate::{tracking_other, OTHER, R};
use differ::device::Device;
use model::{wait_limit, LOCK_ALARM_TICKS, SOAK_TICKS, UNLOCK_TICKS};

/// "The longest window is added to both tick counts promised for a good clock":
/// with a lock alarm of R that was set in the last tick, R is selected 860 + n
/// ticks and the longest window later if that begins with the tick of the
/// switch, and Ready 5,519 ticks after that.
fn check_promise<D: Device>(make: &D) {
    for (delay, length) in [(0, 1), (0, 2_000), (1, 30), (2, 1_000)] {
        let mut bench = tracking_other(make, delay);
        bench.write(0x42, !(1 << (OTHER - 1)));
        bench.measure(R);
        bench.clean_ticks(u32::from(SOAK_TICKS));
        assert_eq!(bench.unit().selected, R);
        bench.ticks(u32::from(UNLOCK_TICKS), 0, false);
        assert_eq!(bench.unit().input(R).remainder, LOCK_ALARM_TICKS);
        bench.write(0x42, 0xff);
        let switch = 860 + wait_limit(delay);
        let (start, end) = (3_000, 3_000 + length);
        bench.set_windows(&[(start, end), (end + 1, end + 2)]);
        bench.set_week(start + 1 - switch);
        bench.expect_service(R, switch + length);
    }
}

#[test]
fn a_good_clock_is_served_after_the_promised_ticks_and_the_longest_window() {
    ask_all!(check_promise);
}

/// From each place before and in a row of windows, R is selected in time, and
/// not one tick earlier than the promise from the worst of them.
fn check_every_start<D: Device>(make: &D) {
    let list = [(200, 210), (211, 241), (242, 260)];
    let soaked = u32::from(SOAK_TICKS);
    let ticks = (60..270).map(|place| {
        let mut bench = tracking_other(make, 0);
        bench.set_windows(&list);
        bench.set_week(place);
        bench.measure(R);
        let found = (1..=300).find(|_| {
            bench.clean_ticks(1);
            bench.unit().selected == R
        });
        found.expect("R is selected")
    });
    assert_eq!(ticks.max(), Some(soaked + 30));
}

#[test]
fn the_promise_from_each_place() {
    ask_all!(check_every_start);
}
