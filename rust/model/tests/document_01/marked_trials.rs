//! Document 01's marked trials A to J, and the example of its run sheet.

use crate::bench::*;
use model::{wait_limit, Unit};

#[test]
fn a_the_sixth_irregular_tick_sets_the_activity_alarm() {
    let mut unit = Unit::fresh();
    masked_ticks(&mut unit, 5, 0x01);
    assert!(!unit.input(1).activity_alarm);
    masked_ticks(&mut unit, 1, 0x01);
    assert!(unit.input(1).activity_alarm);
}

#[test]
fn b_the_fourth_clean_tick_clears_the_activity_alarm() {
    let mut unit = Unit::fresh();
    masked_ticks(&mut unit, 6, 0x01);
    clean_ticks(&mut unit, 3);
    assert!(unit.input(1).activity_alarm);
    clean_ticks(&mut unit, 1);
    assert!(!unit.input(1).activity_alarm);
}

#[test]
fn c_offset_minus_128_sets_the_frequency_alarm() {
    let mut unit = Unit::fresh();
    write(&mut unit, 0x44, 127);
    measure(&mut unit, 1, 0);
    assert!(!unit.input(1).frequency_alarm);
    measure(&mut unit, 1, -128);
    assert!(unit.input(1).frequency_alarm);
}

#[test]
fn d_fresh_limits_set_above_31_and_clear_up_to_25() {
    for sign in [1, -1] {
        let mut unit = Unit::fresh();
        for (offset, alarm) in [
            (31, true),
            (26, true),
            (25, false),
            (26, false),
            (31, false),
            (32, true),
            (26, true),
        ] {
            measure(&mut unit, 1, sign * offset);
            assert_eq!(unit.input(1).frequency_alarm, alarm, "{}", sign * offset);
        }
    }
}

#[test]
fn e_the_limits_keep_a_gap_of_6() {
    let mut unit = Unit::fresh();
    refuse(&mut unit, write_event(0x44, 30), 4);
    write(&mut unit, 0x45, 24);
    write(&mut unit, 0x44, 30);
    assert_eq!((byte(&unit, 0x44), byte(&unit, 0x45)), (30, 24));
}

#[test]
fn f_the_79th_clean_tick_selects() {
    let mut unit = Unit::fresh();
    write(&mut unit, 0x40, 1);
    measure(&mut unit, 1, 0);
    clean_ticks(&mut unit, 78);
    assert_eq!(byte(&unit, 0x48), 0x00);
    clean_ticks(&mut unit, 1);
    assert_eq!(byte(&unit, 0x48), 0x21);
}

#[test]
fn g_the_16th_lock_tick_locks() {
    let mut unit = automatic(&[1]);
    lock_ticks(&mut unit, 15, 0);
    assert_eq!(byte(&unit, 0x48), 0x21);
    lock_ticks(&mut unit, 1, 0);
    assert_eq!(byte(&unit, 0x48), 0x31);
}

#[test]
fn h_the_value_is_rounded_down() {
    let mut unit = automatic(&[1]);
    lock_ticks(&mut unit, 15, 0);
    lock_ticks(&mut unit, 1, -1);
    lock_ticks(&mut unit, 43 * 128 - 1, 0);
    let mut sums = vec![-1];
    sums.extend([0; 42]);
    assert_eq!(unit.history.kept, sums);
    assert_eq!(value(&unit), -1);
}

#[test]
fn i_the_wait_is_the_least_n() {
    assert_eq!(wait_limit(1), 469);
    assert_eq!(wait_limit(255), 119_532);
    for delay in 0..=255 {
        let n = wait_limit(delay);
        assert!(4 * n >= 1_875 * u32::from(delay));
        assert!(n == 0 || 4 * (n - 1) < 1_875 * u32::from(delay));
    }
}

#[test]
fn j_an_equal_priority_reverts_only_from_a_revertive_one() {
    for (byte_of_2, selected) in [(0x08, 1), (0x00, 2)] {
        let mut unit = automatic(&[2]);
        assert_eq!(unit.selected, 2);
        write(&mut unit, 0x1d, byte_of_2);
        measure(&mut unit, 1, 0);
        clean_ticks(&mut unit, 78);
        assert_eq!(unit.selected, 2);
        clean_ticks(&mut unit, 1);
        assert_eq!(unit.selected, selected);
    }
}

/// "Sheet 01 00 40 01 02 00, eight 00, 02, seven 00": a write, a tick, a Hit.
#[test]
fn example_of_the_run_sheet() {
    let mut unit = Unit::fresh();
    let fields = [(3, 0x40, 1, 0), (0, 0, 0, 0), (2, 0, 0, 0)];
    let records = fields.map(|(kind, a, b, word)| {
        let refusal = unit.event_fields(kind, a, b, word);
        let bytes = [0x48, 0x46, 0x49].map(|address| byte(&unit, address));
        (refusal, bytes)
    });
    let expected = [(0, [0, 0, 3]), (0, [0, 0, 3]), (5, [0, 0, 3])];
    assert_eq!(records, expected);
}
