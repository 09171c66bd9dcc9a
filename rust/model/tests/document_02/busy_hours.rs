//! #107: what windows block, the wait meanwhile, and the ticks until a good
//! clock is selected.

use crate::bench::*;
use crate::calls::*;
use model::{wait_limit, Unit, UNLOCK_TICKS};

/// As `reverting`, at the start of a window of so many ticks.
fn reverting_in_window(delay: u8, length: u32) -> Unit {
    let mut unit = reverting(delay);
    set_windows(&mut unit, &[(1_000, 1_000 + length)]);
    set_week(&mut unit, 1_000);
    unit
}

/// The wait's ticks, and what is selected.
fn waited(unit: &Unit) -> (u32, u8) {
    (unit.wait.ticks, unit.selected)
}

/// The tick, counted from 1, in which this is selected.
fn ticks_until(unit: &mut Unit, selected: u8, at_most: u32) -> u32 {
    let found = (1..=at_most).find(|_| {
        wait_ticks(unit, 1);
        unit.selected == selected
    });
    found.expect("it is selected")
}

/// "each from its first tick up to but not including its end", by the place
/// before the tick advances it.
#[test]
fn a_window_blocks_from_its_start_up_to_before_its_end() {
    let list = [(0, 2), (100, 103), (104, 105), (WEEK - 3, WEEK - 1)];
    let blocked = [0, 1, 100, 101, 102, 104, WEEK - 3, WEEK - 2];
    for place in (0..110).chain(WEEK - 10..WEEK) {
        let mut unit = reverting(0);
        set_windows(&mut unit, &list);
        set_week(&mut unit, place);
        wait_ticks(&mut unit, 1);
        let selected = if blocked.contains(&place) { 2 } else { 1 };
        assert_eq!(unit.selected, selected, "place {}", place);
        assert_eq!(unit.week.place, (place + 1) % WEEK);
    }
}

/// Each of eight windows blocks.
#[test]
fn each_of_eight_windows_blocks() {
    let list = [1, 2, 3, 4, 5, 6, 7, 8].map(|index| (500_000 * index, 500_000 * index + 10));
    for (start, end) in list {
        for (place, selected) in [(start - 1, 1), (start, 2), (end - 1, 2), (end, 1)] {
            let mut unit = reverting(0);
            set_windows(&mut unit, &list);
            set_week(&mut unit, place);
            wait_ticks(&mut unit, 1);
            assert_eq!(unit.selected, selected, "place {}", place);
        }
    }
}

/// The wait rises in a window as elsewhere; where it ends in one, the switch
/// comes in the first free tick.
#[test]
fn a_wait_that_ends_in_a_window_switches_in_the_first_free_tick() {
    for (delay, length) in [(0, 1), (0, 30), (1, 470), (1, 471), (2, 2_000)] {
        let mut unit = reverting_in_window(delay, length);
        wait_ticks(&mut unit, length);
        let n = wait_limit(delay);
        assert_eq!(waited(&unit), (length.min(n + 1), 2));
        wait_ticks(&mut unit, 1);
        assert_eq!(waited(&unit), (0, 1));
    }
}

/// A wait that lasts longer than the window is not lengthened by it.
#[test]
fn a_wait_that_ends_after_a_window_comes_in_time() {
    for length in [1, 100, 468, 469] {
        let mut unit = reverting_in_window(1, length);
        wait_ticks(&mut unit, 469);
        assert_eq!(waited(&unit), (469, 2));
        wait_ticks(&mut unit, 1);
        assert_eq!(waited(&unit), (0, 1));
    }
}

/// A window that begins with the tick of the switch, and one that begins a tick
/// later.
#[test]
fn a_window_that_begins_with_the_switch_blocks_it() {
    for (begins_at, tick) in [(469, 470 + 50), (470, 470)] {
        let mut unit = reverting(1);
        set_windows(&mut unit, &[(begins_at, begins_at + 50)]);
        set_week(&mut unit, 0);
        assert_eq!(ticks_until(&mut unit, 1, 1_000), tick);
    }
}

/// "meanwhile the wait rises only if it is below n + 1"
#[test]
fn the_wait_in_a_window_stops_at_n_plus_1() {
    for (delay, most) in [(0, 1), (1, 470), (2, 939), (255, 119_533)] {
        let mut unit = reverting_in_window(delay, 200_000);
        wait_ticks(&mut unit, most - 1);
        assert_eq!(waited(&unit), (most - 1, 2));
        for _ in 0..3 {
            wait_ticks(&mut unit, 1);
            assert_eq!(waited(&unit), (most, 2));
        }
        wait_ticks(&mut unit, 1_000);
        assert_eq!(waited(&unit), (most, 2));
    }
}

/// A longer delay finds the wait at n + 1, from where it goes on; a shorter one
/// leaves it above its own n + 1.
#[test]
fn another_delay_in_a_window() {
    let mut unit = reverting_in_window(1, 5_000);
    wait_ticks(&mut unit, 2_000);
    assert_eq!(waited(&unit), (470, 2));
    write(&mut unit, 0x43, 2);
    wait_ticks(&mut unit, 100);
    assert_eq!(waited(&unit), (570, 2));
    write(&mut unit, 0x43, 0);
    wait_ticks(&mut unit, 100);
    assert_eq!(waited(&unit), (570, 2));
    write(&mut unit, 0x43, 1);
    wait_ticks(&mut unit, 100);
    assert_eq!(waited(&unit), (570, 2));
    write(&mut unit, 0x43, 2);
    wait_ticks(&mut unit, 1);
    assert_eq!(waited(&unit), (571, 2));
    write(&mut unit, 0x43, 0);
    set_week(&mut unit, 0);
    wait_ticks(&mut unit, 1);
    assert_eq!(waited(&unit), (0, 1));
}

/// Inputs 1, 2 and 3 qualified, 3 selected and revertive, 2 better than it and 1
/// best; 2 is waited for at n + 1, in a window.
fn two_better(delay: u8) -> Unit {
    let mut unit = automatic(&[1, 2, 3]);
    for (address, value) in [(0x1d, 1), (0x1e, 0x0a), (0x43, delay), (0x42, 0xfc)] {
        write(&mut unit, address, value);
    }
    wait_ticks(&mut unit, 1);
    write(&mut unit, 0x42, 0xfe);
    set_windows(&mut unit, &[(1_000, 9_000)]);
    set_week(&mut unit, 1_000);
    wait_ticks(&mut unit, 1_500);
    assert_eq!(waited(&unit), (wait_limit(delay) + 1, 3));
    assert_eq!(unit.wait.best, 2);
    unit
}

/// The wait is 1 for another best in a window too, from n + 1 and from above it.
#[test]
fn the_wait_in_a_window_is_1_for_another_best() {
    for shorter in [2, 1] {
        let mut unit = two_better(2);
        write(&mut unit, 0x43, shorter);
        write(&mut unit, 0x42, 0xff);
        wait_ticks(&mut unit, 1);
        assert_eq!((unit.wait.ticks, unit.wait.best), (1, 1));
        wait_ticks(&mut unit, 1);
        assert_eq!((unit.wait.ticks, unit.wait.best), (2, 1));
        set_windows(&mut unit, &[]);
        assert_eq!(ticks_until(&mut unit, 1, 1_000), wait_limit(shorter) - 1);
    }
    // With n = 0 the wait for another best is 1 and stays so.
    let mut unit = two_better(0);
    write(&mut unit, 0x42, 0xff);
    wait_ticks(&mut unit, 5);
    assert_eq!((unit.wait.ticks, unit.wait.best), (1, 1));
}

/// What sets the wait to 0 does so in a window.
#[test]
fn the_wait_in_a_window_is_0_when_best_non_revertive_manual_or_hit() {
    for reason in ENDS_OF_A_WAIT {
        let mut unit = reverting_in_window(1, 5_000);
        wait_ticks(&mut unit, 600);
        assert_eq!(waited(&unit), (470, 2));
        reason(&mut unit);
        wait_ticks(&mut unit, 1);
        assert_eq!(unit.wait.ticks, 0);
    }
}

/// "A switch off a lost reference is never blocked.": to the best, to Free Run,
/// or to none.
#[test]
fn a_lost_reference_is_left_at_once() {
    let losses: [fn(&mut Unit); 3] = [
        |unit| write(unit, 0x42, 0xfd),
        |unit| measure(unit, 2, -128),
        |unit| masked_ticks(unit, 5, 0x02),
    ];
    for loss in losses {
        let mut unit = reverting_in_window(2, 5_000);
        wait_ticks(&mut unit, 300);
        loss(&mut unit);
        assert_eq!(unit.selected, 2);
        tick(&mut unit, 0x02, true, 0);
        assert_eq!(waited(&unit), (0, 1));
        assert!(unit.week.busy());
    }
    for (free_run, selected) in [(0x00, 0), (0x10, 9)] {
        let mut unit = reverting_in_window(2, 5_000);
        write(&mut unit, 0x24, free_run | 0x07);
        wait_ticks(&mut unit, 300);
        write(&mut unit, 0x42, 0x00);
        wait_ticks(&mut unit, 1);
        assert_eq!(waited(&unit), (0, selected));
    }
}

/// A lock alarm in a window: the unlock run goes on, and the reference is lost.
#[test]
fn a_lock_alarm_in_a_window_is_a_loss() {
    let mut unit = reverting_in_window(2, 5_000);
    wait_ticks(&mut unit, 10);
    clean_ticks(&mut unit, u32::from(UNLOCK_TICKS) - 1);
    assert_eq!(unit.selected, 2);
    clean_ticks(&mut unit, 1);
    assert_eq!(unit.selected, 1);
}

/// The first selection of all, and each from nothing selected, is no reversion.
#[test]
fn a_selection_from_none_is_not_blocked() {
    let mut unit = Unit::fresh();
    set_windows(&mut unit, &[(0, 5_000)]);
    write(&mut unit, 0x40, 1);
    measure(&mut unit, 1, 0);
    clean_ticks(&mut unit, 79);
    assert_eq!(unit.selected, 1);
    hit(&mut unit);
    assert_eq!(unit.selected, 0);
    clean_ticks(&mut unit, 79);
    assert_eq!(unit.selected, 1);
}

/// A reversion from a reference to Free Run, and one from Free Run to a
/// reference, are blocked as any other; the loss of Free Run is none.
#[test]
fn a_reversion_to_or_from_free_run_is_blocked() {
    let mut unit = automatic(&[1]);
    write(&mut unit, 0x1c, 0x0f);
    set_windows(&mut unit, &[(1_000, 1_020)]);
    set_week(&mut unit, 1_000);
    write(&mut unit, 0x24, 0x18);
    wait_ticks(&mut unit, 20);
    assert_eq!(waited(&unit), (1, 1));
    wait_ticks(&mut unit, 1);
    assert_eq!(waited(&unit), (0, 9));
    write(&mut unit, 0x1c, 0x00);
    set_week(&mut unit, 1_000);
    wait_ticks(&mut unit, 20);
    assert_eq!(waited(&unit), (1, 9));
    set_week(&mut unit, 1_000);
    let mut lost = unit.clone();
    write(&mut lost, 0x24, 0x08);
    wait_ticks(&mut lost, 1);
    assert_eq!(waited(&lost), (0, 1));
    set_week(&mut unit, 1_020);
    wait_ticks(&mut unit, 1);
    assert_eq!(waited(&unit), (0, 1));
}

/// Manual control is obeyed in a window.
#[test]
fn manual_control_is_not_blocked() {
    for (op_mode, selected) in [(1, 1), (2, 2), (3, 0), (0, 0), (9, 0)] {
        let mut unit = reverting_in_window(0, 5_000);
        wait_ticks(&mut unit, 10);
        write(&mut unit, 0x41, op_mode);
        write(&mut unit, 0x40, 0);
        wait_ticks(&mut unit, 1);
        assert_eq!(waited(&unit), (0, selected));
    }
}

/// Windows and place may be set while a wait runs, in a window or not: what is
/// set counts from the next tick on.
#[test]
fn windows_and_place_set_during_a_wait() {
    let mut unit = reverting(0);
    set_windows(&mut unit, &[(0, WEEK - 1)]);
    wait_ticks(&mut unit, 500);
    assert_eq!(waited(&unit), (1, 2));
    set_windows(&mut unit, &[]);
    wait_ticks(&mut unit, 1);
    assert_eq!(waited(&unit), (0, 1));

    let mut unit = reverting(1);
    wait_ticks(&mut unit, 469);
    let place = unit.week.place;
    set_windows(&mut unit, &[(place, place + 10)]);
    wait_ticks(&mut unit, 5);
    assert_eq!(waited(&unit), (470, 2));
    set_week(&mut unit, place);
    assert_eq!(ticks_until(&mut unit, 1, 100), 11);
}

/// A window that ends the week ends with it; one at the week's start begins
/// anew.
#[test]
fn windows_at_the_weeks_end_and_start() {
    for (window, place, tick) in [
        ((WEEK - 5, WEEK), WEEK - 5, 6),
        ((WEEK - 5, WEEK), WEEK - 1, 2),
        ((WEEK - 5, WEEK), 0, 1),
        ((0, 7), 0, 8),
        ((0, 7), WEEK - 1, 1),
    ] {
        let mut unit = reverting(0);
        set_windows(&mut unit, &[window]);
        set_week(&mut unit, place);
        assert_eq!(ticks_until(&mut unit, 1, 20), tick);
    }
    // A wait of 470 ticks, of which the last would fall in the window at the
    // next week's start.
    let mut unit = reverting(1);
    set_windows(&mut unit, &[(0, 30)]);
    set_week(&mut unit, WEEK - 460);
    assert_eq!(ticks_until(&mut unit, 1, 1_000), 460 + 30 + 1);
}

/// A window a week long but for one tick: the switch comes in that tick.
#[test]
fn the_longest_window_has_one_free_tick_a_week() {
    let mut unit = reverting(0);
    set_windows(&mut unit, &[(0, WEEK - 1)]);
    set_week(&mut unit, 0);
    assert_eq!(ticks_until(&mut unit, 1, WEEK), WEEK);
    assert_eq!(unit.week.place, 0);
}

/// The tick in which input 1 is selected that was measured before tick 1, with
/// input 2 selected and revertive and the place this before tick 1.
fn service(delay: u8, list: &[(u32, u32)], place: u32) -> (u32, Unit) {
    let mut unit = automatic(&[2]);
    write(&mut unit, 0x1d, 0x08);
    write(&mut unit, 0x43, delay);
    set_windows(&mut unit, list);
    set_week(&mut unit, place);
    measure(&mut unit, 1, 0);
    (ticks_until(&mut unit, 1, 10_000), unit)
}

/// "The longest window is added to both tick counts promised for a good clock":
/// from a good measurement on a clock that has no other alarm it is selected
/// within 79 + n ticks and the longest window, and for a window at the worst
/// place not one earlier; Ready comes 5,519 ticks after that.
#[test]
fn a_good_clock_is_selected_within_the_longest_window_more() {
    let lists = [
        &[][..],
        &[(2_000, 2_001)],
        &[(2_000, 2_030)],
        &[(2_000, 2_010), (2_011, 2_041), (2_042, 2_062)],
        &[(2_000, 2_030), (2_031, 2_061), (2_062, 2_090)],
        &[(0, 30), (WEEK - 20, WEEK - 1)],
    ];
    for (list, longest) in lists.into_iter().zip([0, 1, 30, 30, 30, 30]) {
        for delay in [0, 1] {
            let promised = 79 + wait_limit(delay) + longest;
            let near = (1_400..2_100).chain(WEEK - 700..WEEK);
            let ticks = near.map(|place| service(delay, list, place).0);
            assert_eq!(ticks.max(), Some(promised), "{:?}", list);
        }
    }
    let (n, length) = (wait_limit(1), 3_000);
    let worst = 2_000 - (79 + n - 1);
    let (tick, mut unit) = service(1, &[(2_000, 2_000 + length)], worst);
    assert_eq!(tick, 79 + n + length);
    lock_ticks(&mut unit, 5_518, 0);
    assert!(!unit.ready());
    lock_ticks(&mut unit, 1, 0);
    assert!(unit.ready());
}
