//! #104, the real controller beside the model: the bounds of each number, the
//! promise's ticks reached exactly, the soak over a call, and every number in
//! each place of the calls. Each is asked of the model alone too.

#[path = "devices/bench.rs"]
mod bench;
#[cfg(feature = "controller")]
#[path = "devices/held.rs"]
mod held;
#[cfg(feature = "controller")]
#[path = "devices/inspected.rs"]
mod inspected;

use bench::{Bench, TO_READY};
use differ::device::Device;
use model::{wait_limit, BucketSet, Call, Unit, LOCK_ALARM_TICKS, SOAK_TICKS};

/// The reference of the promise, and another.
const R: u8 = 1;
const OTHER: u8 = 2;

impl<D: Device> Bench<D> {
    fn set(&mut self, set: u8, numbers: BucketSet) {
        self.accept(Call::SetBucket { set, numbers });
    }

    fn assign(&mut self, input: u8, set: u8) {
        self.accept(Call::AssignBucket { input, set });
    }

    fn qualified(&self) -> bool {
        self.unit().input(R).qualified()
    }
}

/// The ticks in which a call's alarm is cleared: (S − L) times 2^d.
fn ticks_to_clear(set: BucketSet) -> u32 {
    u32::from(set.size - set.clear_level) << set.decay
}

/// "L < U ≤ S ≤ 255 and d from 0 to 3"; "14: set out of these bounds or set
/// number over 3; an input not 1 to 8 gives 6 and is checked before it."
fn check_bounds<D: Device>(make: &D) {
    let mut bench = Bench::fresh(make);
    let fresh = BucketSet::FRESH;
    let sets = [(0, 0), (3, 0), (4, 14), (255, 14)].map(|(set, answer)| (set, fresh, answer));
    let sizes = [(5, 14), (6, 0), (255, 0), (0, 14)]
        .map(|(size, answer)| (1, BucketSet { size, ..fresh }, answer));
    let set_levels = [(4, 14), (5, 0), (8, 0), (9, 14), (255, 14), (0, 14)]
        .map(|(set_level, answer)| (2, BucketSet { set_level, ..fresh }, answer));
    let clear_levels =
        [(0, 0), (5, 0), (6, 14), (7, 14), (255, 14)].map(|(clear_level, answer)| {
            let numbers = BucketSet {
                clear_level,
                ..fresh
            };
            (3, numbers, answer)
        });
    let decays = [(0, 0), (1, 0), (2, 0), (3, 0), (4, 14), (255, 14)]
        .map(|(decay, answer)| (0, BucketSet { decay, ..fresh }, answer));
    let largest = [
        (0, BucketSet::of(255, 255, 254, 3), 0),
        (0, BucketSet::of(1, 1, 0, 0), 0),
        (0, BucketSet::of(255, 255, 255, 3), 14),
        (0, BucketSet::of(0, 0, 0, 0), 14),
    ];
    let settings = sets.into_iter().chain(sizes).chain(set_levels);
    let settings = settings.chain(clear_levels).chain(decays).chain(largest);
    for (set, numbers, answer) in settings {
        assert_eq!(bench.send(Call::SetBucket { set, numbers }), answer);
    }
    for (input, set, answer) in [
        (0, 0, 6),
        (1, 0, 0),
        (8, 3, 0),
        (9, 3, 6),
        (255, 0, 6),
        (1, 4, 14),
        (8, 255, 14),
        (0, 4, 6),
        (9, 255, 6),
    ] {
        assert_eq!(bench.send(Call::AssignBucket { input, set }), answer);
    }
}

#[test]
fn the_bounds_of_each_number() {
    check_bounds(&Unit::fresh());
    #[cfg(feature = "controller")]
    check_bounds(&held::Held::fresh_unit());
}

/// The sets of the promise: most with (S − L) times 2^d above 782.
fn sets() -> [BucketSet; 8] {
    [
        BucketSet::of(255, 1, 0, 3),
        BucketSet::of(255, 255, 100, 3),
        BucketSet::of(200, 150, 50, 3),
        BucketSet::of(255, 60, 59, 2),
        BucketSet::of(100, 90, 2, 3),
        BucketSet::of(97, 50, 0, 3),
        BucketSet::of(255, 255, 254, 0),
        BucketSet::FRESH,
    ]
}

/// Automatic control, this delay, the other reference revertive and behind R.
fn promised<D: Device>(make: &D, delay: u8) -> Bench<D> {
    let mut bench = Bench::fresh(make);
    bench.write(0x40, 1);
    bench.write(0x43, delay);
    bench.write(0x1b + OTHER, 0x09);
    bench
}

/// "The promise of service then has 78 + the larger of 782 and (S − L) times
/// 2^d for its 860, with 5,519 more to Ready": reached by a call alone, with no
/// other reference and with another that is selected, from which R is reverted
/// to after n ticks more.
fn check_calls<D: Device>(make: &D) {
    for set in sets() {
        for delay in [0, 2] {
            let soaked = ticks_to_clear(set) + 78;
            let mut bench = promised(make, delay);
            bench.measure(R);
            bench.set(3, set);
            bench.assign(R, 3);
            bench.expect_service(R, soaked);

            let mut bench = promised(make, delay);
            bench.measure(OTHER);
            bench.clean_ticks(u32::from(SOAK_TICKS));
            assert_eq!(bench.unit().selected, OTHER);
            bench.measure(R);
            bench.assign(R, 2);
            bench.set(2, set);
            bench.expect_service(R, soaked + wait_limit(delay));
        }
    }
}

#[test]
fn a_reference_is_served_after_the_promised_ticks_of_a_call() {
    check_calls(&Unit::fresh());
    #[cfg(feature = "controller")]
    check_calls(&inspected::Inspected::fresh_pair());
}

/// The same with a lock alarm of R that was set in the last tick: its 782 ticks
/// or the bucket's, whichever are more.
fn check_lock_alarm<D: Device>(make: &D) {
    for set in sets() {
        let mut bench = promised(make, 0);
        bench.measure(R);
        bench.ticks(u32::from(SOAK_TICKS), 0, false);
        assert_eq!(bench.unit().selected, R);
        bench.ticks(u32::from(LOCK_ALARM_TICKS), 0, false);
        assert_eq!(bench.unit().input(R).remainder, LOCK_ALARM_TICKS);
        bench.set(1, set);
        bench.assign(R, 1);
        let larger = ticks_to_clear(set).max(u32::from(LOCK_ALARM_TICKS));
        bench.expect_service(R, 78 + larger);
    }
}

#[test]
fn a_reference_is_served_after_the_larger_of_alarm_and_bucket() {
    check_lock_alarm(&Unit::fresh());
    #[cfg(feature = "controller")]
    check_lock_alarm(&inspected::Inspected::fresh_pair());
}

/// The numbers of the sets above, worked out.
#[test]
fn the_promised_ticks() {
    let ticks = sets().map(|set| 78 + ticks_to_clear(set).max(782));
    assert_eq!(ticks, [2_118, 1_318, 1_278, 862, 862, 860, 860, 860]);
    assert_eq!(TO_READY, 5_519);
}

/// The tick in which R is qualified, counted from its first good one, if a call
/// gives it this set after 40 of them.
fn qualified_at<D: Device>(make: &D, set: BucketSet) -> u32 {
    let mut bench = promised(make, 0);
    bench.set(1, set);
    bench.measure(R);
    bench.clean_ticks(40);
    bench.assign(R, 1);
    assert!(bench.unit().input(R).activity_alarm);
    assert_eq!(bench.unit().input(R).soak, 40);
    let mut ticks = 40;
    while !bench.qualified() {
        bench.clean_ticks(1);
        ticks += 1;
    }
    ticks
}

/// With S = L + 1 and d = 0 the soak goes on as if nothing had come; else it
/// begins anew with the tick that clears the alarm.
fn check_soak<D: Device>(make: &D) {
    for (set, tick) in [
        (BucketSet::of(1, 1, 0, 0), 79),
        (BucketSet::of(5, 5, 4, 0), 79),
        (BucketSet::of(255, 255, 254, 0), 79),
        (BucketSet::of(2, 1, 0, 0), 42 + 78),
        (BucketSet::of(6, 5, 4, 0), 42 + 78),
        (BucketSet::of(255, 254, 253, 0), 42 + 78),
        (BucketSet::of(5, 5, 4, 1), 42 + 78),
        (BucketSet::of(5, 5, 4, 3), 48 + 78),
    ] {
        assert_eq!(qualified_at(make, set), tick, "{:?}", set);
    }
}

#[test]
fn a_soak_goes_on_over_a_call_that_one_clean_tick_undoes() {
    check_soak(&Unit::fresh());
    #[cfg(feature = "controller")]
    check_soak(&inspected::Inspected::fresh_pair());
}

/// A call on a fresh unit, compared in number and registers; one that is
/// accepted is followed by ticks that the sets make a difference to.
fn check_call<D: Device>(make: &D, call: Call) {
    let mut bench = Bench::fresh(make);
    if bench.send(call) != 0 {
        return;
    }
    for input in 1..=8 {
        bench.measure(input);
    }
    for (count, mask) in [(20, 0x00), (7, 0xff), (20, 0x00), (3, 0x0f), (90, 0x00)] {
        bench.ticks(count, mask, true);
    }
}

/// All 256 numbers in each place of a setting, and all pairs of an assignment.
fn check_all_numbers<D: Device>(make: &D) {
    let bases = [
        (0, BucketSet::FRESH),
        (0, BucketSet::of(128, 128, 127, 0)),
        (3, BucketSet::of(255, 2, 1, 3)),
    ];
    for (set, base) in bases {
        for byte in 0..=255 {
            let calls = [
                (byte, base),
                (set, BucketSet { size: byte, ..base }),
                (
                    set,
                    BucketSet::of(base.size, byte, base.clear_level, base.decay),
                ),
                (
                    set,
                    BucketSet::of(base.size, base.set_level, byte, base.decay),
                ),
                (
                    set,
                    BucketSet {
                        decay: byte,
                        ..base
                    },
                ),
            ];
            for (set, numbers) in calls {
                check_call(make, Call::SetBucket { set, numbers });
            }
        }
    }
    for input in 0..=255 {
        for set in 0..=255 {
            check_call(make, Call::AssignBucket { input, set });
        }
    }
}

#[test]
fn every_number_in_each_place() {
    check_all_numbers(&Unit::fresh());
    #[cfg(feature = "controller")]
    check_all_numbers(&inspected::Inspected::fresh_pair());
}
