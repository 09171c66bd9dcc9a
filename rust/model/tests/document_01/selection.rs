//! Boundaries of the selection: order, reversion, manual control, Free Run.

use crate::bench::*;
use model::wait_limit;

#[test]
fn priority_comes_first_then_number() {
    let mut unit = automatic(&[3, 5, 7]);
    assert_eq!(unit.best(), 3);
    for (address, value, best) in [
        (0x1e, 2, 5),
        (0x20, 2, 7),
        (0x22, 2, 3),
        (0x22, 1, 7),
        (0x20, 0, 5),
        (0x1e, 0xf0, 3),
    ] {
        write(&mut unit, address, value);
        assert_eq!(unit.best(), best);
    }
}

#[test]
fn reversion_comes_when_wait_less_1_is_n() {
    for delay in [0, 1, 2, 255] {
        let mut unit = reverting(delay);
        let n = wait_limit(delay);
        wait_ticks(&mut unit, n);
        assert_eq!((unit.selected, unit.wait.ticks), (2, n));
        wait_ticks(&mut unit, 1);
        assert_eq!((unit.selected, unit.wait.ticks), (1, 0));
    }
}

#[test]
fn the_wait_starts_at_1_for_another_best() {
    let mut unit = automatic(&[1, 2, 3]);
    for (address, value) in [(0x1d, 1), (0x1e, 0x0a), (0x43, 1), (0x42, 0xfc)] {
        write(&mut unit, address, value);
    }
    wait_ticks(&mut unit, 1);
    assert_eq!(unit.selected, 3);
    // 300 ticks for input 2, then input 1 is better and waits from 1.
    write(&mut unit, 0x42, 0xfe);
    wait_ticks(&mut unit, 300);
    assert_eq!((unit.wait.ticks, unit.wait.best), (300, 2));
    write(&mut unit, 0x42, 0xff);
    wait_ticks(&mut unit, 1);
    assert_eq!((unit.wait.ticks, unit.wait.best), (1, 1));
    wait_ticks(&mut unit, 468);
    assert_eq!(unit.selected, 3);
    wait_ticks(&mut unit, 1);
    assert_eq!(unit.selected, 1);
}

#[test]
fn the_wait_is_0_when_best_non_revertive_manual_or_hit() {
    for reason in ENDS_OF_A_WAIT {
        let mut unit = reverting(1);
        wait_ticks(&mut unit, 100);
        assert_eq!(unit.wait.ticks, 100);
        reason(&mut unit);
        wait_ticks(&mut unit, 1);
        assert_eq!(unit.wait.ticks, 0);
    }
}

/// Without a manual tick between them, two writes of the control leave it.
#[test]
fn control_alone_does_not_zero_the_wait() {
    let mut unit = reverting(1);
    wait_ticks(&mut unit, 100);
    write(&mut unit, 0x40, 0);
    write(&mut unit, 0x40, 1);
    wait_ticks(&mut unit, 1);
    assert_eq!(unit.wait.ticks, 101);
}

#[test]
fn a_shorter_delay_counts_at_once() {
    let mut unit = reverting(255);
    wait_ticks(&mut unit, 1_000);
    write(&mut unit, 0x43, 2);
    wait_ticks(&mut unit, 1);
    assert_eq!(unit.selected, 1);
}

/// Bit 3 of the selected one counts, not that of the best.
#[test]
fn the_selected_ones_bit_3_counts() {
    for (byte_of_1, byte_of_2, selected) in [(0x00, 0x08, 1), (0x08, 0x00, 2)] {
        let mut unit = reverting(0);
        write(&mut unit, 0x1c, byte_of_1);
        write(&mut unit, 0x1d, byte_of_2);
        wait_ticks(&mut unit, 1);
        assert_eq!(unit.selected, selected);
    }
}

#[test]
fn manual_selects_a_qualified_input_masked_or_not() {
    let mut unit = manual(&[4]);
    write(&mut unit, 0x42, 0x00);
    for (op_mode, state_and_selected) in [(4, 0x24), (5, 0x00), (4, 0x24), (9, 0x00), (0, 0x00)] {
        write(&mut unit, 0x41, op_mode);
        clean_ticks(&mut unit, 1);
        assert_eq!(byte(&unit, 0x48), state_and_selected);
    }
    write(&mut unit, 0x41, 4);
    clean_ticks(&mut unit, 1);
    measure(&mut unit, 4, -128);
    clean_ticks(&mut unit, 1);
    assert_eq!(byte(&unit, 0x48), 0x00);
}

#[test]
fn manual_without_reference_is_holdover_if_ready_but_op_mode_0_is_free_run() {
    let mut unit = with_blocks(43);
    write(&mut unit, 0x40, 0);
    for (op_mode, state_and_selected) in [
        (9, 0x10),
        (0, 0x00),
        (2, 0x10),
        (1, 0x51),
        (0, 0x00),
        (1, 0x21),
    ] {
        write(&mut unit, 0x41, op_mode);
        clean_ticks(&mut unit, 1);
        assert_eq!(byte(&unit, 0x48), state_and_selected);
    }
}

/// A change of control that leaves the selection leaves the state and runs.
#[test]
fn the_same_reference_by_manual_control_stays_locked() {
    let mut unit = locked();
    write(&mut unit, 0x41, 1);
    write(&mut unit, 0x40, 0);
    lock_ticks(&mut unit, 1, 0);
    assert_eq!(byte(&unit, 0x48), 0x31);
}

#[test]
fn free_run_stands_after_references_of_equal_priority() {
    let mut unit = automatic(&[8]);
    for (free_run, byte_of_8, best) in [
        (0x00, 7, 8),
        (0x17, 7, 8),
        (0x16, 7, 9),
        (0x06, 7, 8),
        (0x10, 0, 8),
        (0x1f, 7, 8),
    ] {
        write(&mut unit, 0x24, free_run);
        write(&mut unit, 0x23, byte_of_8);
        assert_eq!(unit.best(), best);
    }
}

#[test]
fn free_run_is_selected_as_a_candidate_and_left_by_its_own_bit_3() {
    for (free_run, selected) in [(0x19, 1), (0x11, 9)] {
        let mut unit = with_blocks(43);
        write(&mut unit, 0x24, free_run);
        write(&mut unit, 0x42, 0x00);
        clean_ticks(&mut unit, 1);
        assert_eq!(byte(&unit, 0x48), 0x09);
        assert_eq!(byte(&unit, 0x49), 0x07);
        write(&mut unit, 0x42, 0xff);
        clean_ticks(&mut unit, 1);
        assert_eq!(unit.selected, selected);
    }
}

#[test]
fn free_run_switched_off_leaves_holdover_if_ready() {
    let mut unit = with_blocks(43);
    write(&mut unit, 0x24, 0x10);
    write(&mut unit, 0x42, 0x00);
    clean_ticks(&mut unit, 1);
    write(&mut unit, 0x24, 0x00);
    clean_ticks(&mut unit, 1);
    assert_eq!(byte(&unit, 0x48), 0x10);
}
