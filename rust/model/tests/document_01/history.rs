//! Boundaries of the history on one reference: blocks, Ready, value, commands.
//! What a switch does to it is in document 02's #102.

use crate::bench::*;
use model::{OpenBlock, Unit};

/// As `with_blocks`, then as many blocks more of one sample each.
fn with_samples(first_blocks: u32, samples: &[i32]) -> Unit {
    let mut unit = with_blocks(first_blocks);
    for &sample in samples {
        lock_ticks(&mut unit, 128, sample);
    }
    unit
}

/// The blocks of the history that fills.
fn blocks(unit: &Unit) -> usize {
    unit.history.filling().len()
}

#[test]
fn the_tick_that_locks_adds_its_sample() {
    let mut unit = locked();
    assert_eq!(unit.history.open.samples, 1);
    lock_ticks(&mut unit, 126, 0);
    assert_eq!((unit.history.open.samples, blocks(&unit)), (127, 0));
    lock_ticks(&mut unit, 1, 0);
    assert_eq!((unit.history.open.samples, blocks(&unit)), (0, 1));
}

#[test]
fn a_tick_that_does_not_end_locked_empties_the_open_block() {
    let mut unit = locked();
    lock_ticks(&mut unit, 126, 5);
    clean_ticks(&mut unit, 1);
    assert_eq!(unit.history.open, OpenBlock::EMPTY);
    lock_ticks(&mut unit, 16 + 126, 5);
    assert_eq!(blocks(&unit), 0);
    lock_ticks(&mut unit, 1, 5);
    assert_eq!(*unit.history.filling(), [128 * 5]);
}

#[test]
fn ready_comes_with_the_43rd_block() {
    let mut unit = locked();
    lock_ticks(&mut unit, 43 * 128 - 2, 0);
    assert_eq!((blocks(&unit), byte(&unit, 0x49)), (42, 0x00));
    lock_ticks(&mut unit, 1, 0);
    assert_eq!((blocks(&unit), byte(&unit, 0x49)), (43, 0x04));
}

#[test]
fn the_latest_64_blocks_are_kept() {
    let mut unit = with_samples(1, &[1; 63]);
    assert_eq!(blocks(&unit), 64);
    assert_eq!(unit.history.kept[0], 0);
    lock_ticks(&mut unit, 128, 2);
    assert_eq!(blocks(&unit), 64);
    assert_eq!(unit.history.kept[0], 128);
    assert_eq!(unit.history.kept[63], 256);
}

#[test]
fn the_value_is_0_unless_ready() {
    let mut unit = automatic(&[1]);
    lock_ticks(&mut unit, 15 + 42 * 128, -125_000_000);
    assert_eq!((byte(&unit, 0x49), value(&unit)), (0x00, 0));
    lock_ticks(&mut unit, 128, -125_000_000);
    assert_eq!((byte(&unit, 0x49), value(&unit)), (0x04, -125_000_000));
    write(&mut unit, 0x26, 3);
    assert_eq!((byte(&unit, 0x49), value(&unit)), (0x00, 0));
}

#[test]
fn the_value_is_the_floor_of_the_mean() {
    for (sample, value_expected) in [
        (1, 0),
        (-1, -1),
        (43, 0),
        (44, 1),
        (-44, -1),
        (-45, -2),
        (125_000_000, 2_840_909),
        (-125_000_000, -2_840_910),
    ] {
        // One block of the sample among 43 blocks of 0: the mean is 1/44.
        let unit = with_samples(43, &[sample]);
        assert_eq!(value(&unit), value_expected, "{}", sample);
    }
}

#[test]
fn the_open_block_does_not_count_for_the_value() {
    let mut unit = with_blocks(43);
    lock_ticks(&mut unit, 127, 125_000_000);
    assert_eq!(value(&unit), 0);
}

#[test]
fn command_1_copies_and_command_2_restores() {
    let mut unit = with_samples(1, &[7; 42]);
    let kept = unit.history.kept.clone();
    lock_ticks(&mut unit, 5, 9);
    write(&mut unit, 0x26, 1);
    assert_eq!((byte(&unit, 0x26), byte(&unit, 0x49)), (1, 0x0c));
    assert_eq!(unit.history.open.samples, 5);
    lock_ticks(&mut unit, 128 + 123, 9);
    lock_ticks(&mut unit, 20, 9);
    assert_eq!(blocks(&unit), 45);
    write(&mut unit, 0x26, 2);
    assert_eq!((byte(&unit, 0x26), byte(&unit, 0x49)), (2, 0x0c));
    assert_eq!(unit.history.kept, kept);
    assert_eq!(unit.history.open.samples, 0);
}

#[test]
fn command_3_empties_all_but_the_backup() {
    let mut unit = with_blocks(43);
    lock_ticks(&mut unit, 5, 9);
    write(&mut unit, 0x26, 1);
    write(&mut unit, 0x26, 3);
    assert_eq!((byte(&unit, 0x26), byte(&unit, 0x49)), (3, 0x08));
    assert_eq!((blocks(&unit), unit.history.open.samples), (0, 0));
    write(&mut unit, 0x26, 2);
    assert_eq!((blocks(&unit), byte(&unit, 0x49)), (43, 0x0c));
}

#[test]
fn command_0_changes_its_register_only() {
    let mut unit = with_blocks(43);
    lock_ticks(&mut unit, 5, 9);
    write(&mut unit, 0x26, 1);
    let mut expected = unit.clone();
    expected.settings.command = 0;
    write(&mut unit, 0x26, 0);
    assert_eq!(unit, expected);
}
