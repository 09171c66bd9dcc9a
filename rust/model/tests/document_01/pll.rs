//! Boundaries of the PLL's states, and the hours in Holdover.

use crate::bench::*;
use model::State;

const TICKS_PER_HOUR: u32 = 28_125;

#[test]
fn locked_is_lost_and_found() {
    let mut unit = locked();
    clean_ticks(&mut unit, 1);
    assert_eq!(byte(&unit, 0x48), 0x41);
    assert_eq!(byte(&unit, 0x49), 0x02);
    lock_ticks(&mut unit, 15, 0);
    assert_eq!(byte(&unit, 0x48), 0x41);
    lock_ticks(&mut unit, 1, 0);
    assert_eq!(byte(&unit, 0x48), 0x31);
    assert_eq!(byte(&unit, 0x49), 0x00);
}

#[test]
fn a_clear_lock_flag_restarts_the_lock_run_and_a_set_one_the_unlock_run() {
    let mut unit = automatic(&[1]);
    lock_ticks(&mut unit, 15, 0);
    clean_ticks(&mut unit, 781);
    lock_ticks(&mut unit, 1, 0);
    clean_ticks(&mut unit, 781);
    assert_eq!(byte(&unit, 0x48), 0x21);
    lock_ticks(&mut unit, 16, 0);
    assert_eq!(byte(&unit, 0x48), 0x31);
}

#[test]
fn lock_flags_do_not_count_before_a_reference_is_selected() {
    let mut unit = automatic(&[]);
    measure(&mut unit, 1, 0);
    lock_ticks(&mut unit, 79, 0);
    assert_eq!((byte(&unit, 0x48), unit.pll.lock_run), (0x21, 0));
}

#[test]
fn a_change_of_reference_goes_through_pre_locked_2() {
    let mut unit = automatic(&[1, 2]);
    lock_ticks(&mut unit, 16, 0);
    write(&mut unit, 0x42, 0xfe);
    lock_ticks(&mut unit, 1, 0);
    assert_eq!((byte(&unit, 0x48), unit.pll.lock_run), (0x52, 0));
    clean_ticks(&mut unit, 1);
    assert_eq!(byte(&unit, 0x48), 0x52);
    lock_ticks(&mut unit, 16, 0);
    assert_eq!(byte(&unit, 0x48), 0x32);
}

#[test]
fn from_holdover_a_reference_starts_pre_locked_2() {
    let mut unit = holdover();
    assert_eq!(byte(&unit, 0x48), 0x10);
    assert_eq!(byte(&unit, 0x49), 0x07);
    clean_ticks(&mut unit, 79);
    write(&mut unit, 0x42, 0xff);
    clean_ticks(&mut unit, 1);
    assert_eq!(byte(&unit, 0x48), 0x51);
}

#[test]
fn a_hit_zeroes_the_soak_and_asks_ready() {
    let mut unit = automatic(&[1, 2]);
    hit(&mut unit);
    assert_eq!(byte(&unit, 0x48), 0x00);
    assert_eq!(byte(&unit, 0x46), 0x02);
    clean_ticks(&mut unit, 1);
    assert_eq!(byte(&unit, 0x48), 0x22);

    let mut ready = with_blocks(43);
    lock_ticks(&mut ready, 5, 0);
    hit(&mut ready);
    assert_eq!(byte(&ready, 0x48), 0x10);
    assert_eq!(ready.history.open.samples, 0);
    assert_eq!(ready.history.kept.len(), 43);
}

/// The Hit's rule asks Ready alone; Op_Mode 0 holds from the next tick.
#[test]
fn a_hit_in_manual_free_run_before_the_first_manual_tick() {
    let mut unit = with_blocks(43);
    write(&mut unit, 0x40, 0);
    hit(&mut unit);
    assert_eq!(unit.pll.state, State::Holdover);
    clean_ticks(&mut unit, 1);
    assert_eq!(unit.pll.state, State::FreeRun);
}

#[test]
fn hours_count_the_ticks_after_the_entering_hit() {
    let mut unit = holdover();
    assert_eq!(byte(&unit, 0x27), 0);
    for hours in 0..3 {
        clean_ticks(&mut unit, TICKS_PER_HOUR - 1);
        assert_eq!(byte(&unit, 0x27), hours);
        clean_ticks(&mut unit, 1);
        assert_eq!(byte(&unit, 0x27), hours + 1);
    }
}

#[test]
fn hours_count_the_ticks_after_the_entering_tick_and_start_anew() {
    let mut unit = with_blocks(43);
    for _ in 0..2 {
        write(&mut unit, 0x42, 0x00);
        clean_ticks(&mut unit, 1);
        assert_eq!(byte(&unit, 0x48), 0x10);
        clean_ticks(&mut unit, TICKS_PER_HOUR - 1);
        assert_eq!(byte(&unit, 0x27), 0);
        clean_ticks(&mut unit, 1);
        assert_eq!(byte(&unit, 0x27), 1);
        write(&mut unit, 0x42, 0xff);
        clean_ticks(&mut unit, 1);
        assert_eq!(byte(&unit, 0x48), 0x51);
        assert_eq!(byte(&unit, 0x27), 0);
    }
}

#[test]
fn hours_end_when_the_history_is_emptied() {
    let mut unit = holdover();
    clean_ticks(&mut unit, TICKS_PER_HOUR);
    write(&mut unit, 0x26, 1);
    write(&mut unit, 0x26, 3);
    // "Commands do not change the state before the next tick."
    assert_eq!((byte(&unit, 0x48), byte(&unit, 0x27)), (0x10, 1));
    clean_ticks(&mut unit, 1);
    assert_eq!((byte(&unit, 0x48), byte(&unit, 0x27)), (0x00, 0));
    write(&mut unit, 0x26, 2);
    assert_eq!(byte(&unit, 0x48), 0x00);
    clean_ticks(&mut unit, TICKS_PER_HOUR);
    assert_eq!((byte(&unit, 0x48), byte(&unit, 0x27)), (0x10, 0));
    clean_ticks(&mut unit, 1);
    assert_eq!(byte(&unit, 0x27), 1);
}

#[test]
fn hours_stop_at_255() {
    let mut unit = holdover();
    clean_ticks(&mut unit, 255 * TICKS_PER_HOUR - 1);
    assert_eq!(byte(&unit, 0x27), 254);
    clean_ticks(&mut unit, 1);
    assert_eq!(byte(&unit, 0x27), 255);
    clean_ticks(&mut unit, 2 * TICKS_PER_HOUR);
    assert_eq!(byte(&unit, 0x27), 255);
}
