//! Boundaries of the monitors: bucket, soak, lock alarm, masks.

use crate::bench::*;
use model::Unit;

#[test]
fn the_bucket_holds_8() {
    let mut unit = Unit::fresh();
    masked_ticks(&mut unit, 20, 0x80);
    assert_eq!(unit.input(8).level, 8);
    assert_eq!(unit.input(7).level, 0);
    // From 8, two clean ticks a step: 5 after six, 4 after eight.
    clean_ticks(&mut unit, 7);
    assert!(unit.input(8).activity_alarm);
    clean_ticks(&mut unit, 1);
    assert!(!unit.input(8).activity_alarm);
    clean_ticks(&mut unit, 20);
    assert_eq!(unit.input(8).level, 0);
}

/// At level 5 the alarm is kept: clear on the way up, set on the way down.
#[test]
fn the_activity_alarm_has_hysteresis() {
    let mut unit = Unit::fresh();
    let steps = [
        (0x01, 5, 5, false),
        (0x00, 2, 4, false),
        (0x01, 1, 5, false),
        (0x01, 1, 6, true),
        (0x00, 2, 5, true),
        (0x01, 1, 6, true),
        (0x00, 4, 4, false),
    ];
    for (mask, count, level, alarm) in steps {
        masked_ticks(&mut unit, count, mask);
        assert_eq!(unit.input(1).level, level);
        assert_eq!(unit.input(1).activity_alarm, alarm);
    }
}

#[test]
fn an_irregular_tick_zeroes_the_decay_count() {
    let mut unit = Unit::fresh();
    // One clean tick between irregular ones never drains the bucket.
    for _ in 0..6 {
        masked_ticks(&mut unit, 1, 0x01);
        clean_ticks(&mut unit, 1);
    }
    assert_eq!(unit.input(1).level, 6);
    assert!(unit.input(1).activity_alarm);
}

#[test]
fn an_alarm_restarts_the_soak() {
    let mut unit = automatic(&[1, 2]);
    assert_eq!(byte(&unit, 0x46), 0x03);
    measure(&mut unit, 1, 127);
    assert_eq!(byte(&unit, 0x46), 0x03);
    clean_ticks(&mut unit, 1);
    assert_eq!(byte(&unit, 0x46), 0x02);
    measure(&mut unit, 1, 25);
    clean_ticks(&mut unit, 78);
    assert_eq!(byte(&unit, 0x46), 0x02);
    clean_ticks(&mut unit, 1);
    assert_eq!(byte(&unit, 0x46), 0x03);
}

#[test]
fn available_follows_the_mask_when_read() {
    let mut unit = automatic(&[1, 3, 8]);
    for (mask, available, count) in [(0xff, 0x85, 3), (0x7e, 0x04, 1), (0x00, 0x00, 0)] {
        write(&mut unit, 0x42, mask);
        assert_eq!(byte(&unit, 0x46), 0x85);
        assert_eq!(byte(&unit, 0x47), available);
        assert_eq!(byte(&unit, 0x4e), count);
    }
    // What is selected waits for the next tick.
    assert_eq!(unit.selected, 1);
    clean_ticks(&mut unit, 1);
    assert_eq!(unit.selected, 0);
}

#[test]
fn the_lock_alarm_comes_at_782_and_lasts_782_ticks() {
    let mut unit = automatic(&[1]);
    clean_ticks(&mut unit, 781);
    assert_eq!((unit.selected, unit.input(1).remainder), (1, 0));
    clean_ticks(&mut unit, 1);
    assert_eq!((unit.selected, unit.input(1).remainder), (0, 782));
    assert_eq!(byte(&unit, 0x46), 0x00);
    clean_ticks(&mut unit, 781);
    assert_eq!((unit.input(1).remainder, unit.input(1).soak), (1, 0));
    // The tick that ends the alarm already counts for the soak.
    clean_ticks(&mut unit, 1);
    assert_eq!((unit.input(1).remainder, unit.input(1).soak), (0, 1));
    clean_ticks(&mut unit, 77);
    assert_eq!(unit.selected, 0);
    clean_ticks(&mut unit, 1);
    assert_eq!(unit.selected, 1);
}
