//! #102: the building history beside the kept blocks, what switches, commands,
//! Hits and writes do to the two, and what is shown meanwhile.

use crate::bench::*;
use model::{Blocks, OpenBlock, Unit};

/// The sum of a block of 128 equal samples.
fn sum(sample: i32) -> i64 {
    128 * i64::from(sample)
}

/// Blocks of equal samples.
fn blocks(count: usize, sample: i32) -> Blocks {
    vec![sum(sample); count].into()
}

/// Locked to the selected reference, then this many blocks of one sample; the
/// open block is empty after them.
fn fill(unit: &mut Unit, count: u32, sample: i32) {
    if !unit.locked() {
        lock_ticks(unit, 15, sample);
    }
    lock_ticks(unit, 128 * count, sample);
    assert_eq!(unit.history.open, OpenBlock::EMPTY);
}

/// Input 1 selected, Ready with 43 blocks of sample 7, nothing building.
fn ready_unit() -> Unit {
    let mut unit = automatic(&[1]);
    fill(&mut unit, 43, 7);
    assert_eq!(unit.history.kept, blocks(43, 7));
    assert_eq!(unit.history.building, None);
    unit
}

/// As `ready_unit`, switched to input 2 under policy 0, where this many blocks
/// of sample 9 are built.
fn building_unit(count: u32) -> Unit {
    let mut unit = ready_unit();
    switch_to(&mut unit, 2);
    fill(&mut unit, count, 9);
    assert_building(&unit, count as usize);
    unit
}

/// Selects an input by masking all others.
fn switch_to(unit: &mut Unit, input: u8) {
    measure(unit, input, 0);
    clean_ticks(unit, 79);
    write(unit, 0x42, 1 << (input - 1));
    clean_ticks(unit, 1);
    assert_eq!(unit.selected, input);
}

/// The 43 blocks of sample 7 are in use; so many of sample 9 are building.
fn assert_building(unit: &Unit, count: usize) {
    assert_eq!(unit.history.kept, blocks(43, 7));
    assert_eq!(unit.history.building, Some(blocks(count, 9)));
    assert!(unit.ready());
}

/// "Where policy 0 emptied the blocks, the switch now starts a second, building
/// history"
#[test]
fn a_switch_under_policy_0_starts_building_and_keeps_the_blocks() {
    let mut unit = ready_unit();
    lock_ticks(&mut unit, 100, 8);
    switch_to(&mut unit, 2);
    assert_building(&unit, 0);
    assert_eq!(unit.history.open, OpenBlock::EMPTY);
    assert_eq!((byte(&unit, 0x49), value(&unit)), (0x06, 7));
}

#[test]
fn the_first_selection_of_all_builds_under_policy_0_only() {
    let mut unit = locked();
    assert_eq!(unit.history.building, Some(Blocks::new()));
    lock_ticks(&mut unit, 42 * 128, 0);
    assert_eq!(unit.history.building, Some(blocks(42, 0)));
    assert_eq!((unit.history.kept.len(), unit.ready()), (0, false));

    let mut unit = Unit::fresh();
    write(&mut unit, 0x25, 1);
    write(&mut unit, 0x40, 1);
    measure(&mut unit, 1, 0);
    clean_ticks(&mut unit, 79);
    fill(&mut unit, 42, 0);
    assert_eq!(unit.history.building, None);
    assert_eq!(unit.history.kept, blocks(42, 0));
}

/// "and a further switch to another reference empties it": also one back to
/// the reference that had the kept blocks.
#[test]
fn a_further_switch_under_policy_0_empties_the_building_history() {
    for input in [3, 1] {
        let mut unit = building_unit(20);
        switch_to(&mut unit, input);
        assert_building(&unit, 0);
        fill(&mut unit, 1, 9);
        assert_building(&unit, 1);
    }
}

/// Nothing selected and Free Run are no references: the same one again is no
/// switch.
#[test]
fn the_same_reference_again_goes_on_building() {
    let mut unit = building_unit(20);
    for free_run in [0x00, 0x18] {
        write(&mut unit, 0x24, free_run);
        write(&mut unit, 0x42, 0x00);
        clean_ticks(&mut unit, 1);
        assert!(!unit.reference_selected());
        write(&mut unit, 0x42, 0x02);
        clean_ticks(&mut unit, 1);
        assert_eq!(unit.selected, 2);
        assert_building(&unit, 20);
    }
    fill(&mut unit, 1, 9);
    assert_building(&unit, 21);
}

#[test]
fn the_same_reference_again_starts_no_building() {
    let mut unit = ready_unit();
    hit(&mut unit);
    clean_ticks(&mut unit, 79);
    assert_eq!((unit.selected, unit.history.building.is_some()), (1, false));
    fill(&mut unit, 1, 9);
    assert_eq!(unit.history.kept.len(), 44);
}

/// The reference selected last is remembered under policy 1 too.
#[test]
fn a_switch_under_policy_1_counts_as_the_last() {
    let mut unit = ready_unit();
    write(&mut unit, 0x25, 1);
    switch_to(&mut unit, 2);
    write(&mut unit, 0x25, 0);
    hit(&mut unit);
    clean_ticks(&mut unit, 79);
    assert_eq!((unit.selected, unit.history.building.is_some()), (2, false));
    switch_to(&mut unit, 1);
    assert_building(&unit, 0);
}

/// "The kept blocks stay in use until the building history has 43 blocks, which
/// then replace them."
#[test]
fn the_43rd_block_replaces_in_its_tick() {
    let mut unit = building_unit(42);
    lock_ticks(&mut unit, 127, 9);
    assert_building(&unit, 42);
    assert_eq!((byte(&unit, 0x49), value(&unit)), (0x04, 7));
    lock_ticks(&mut unit, 1, 9);
    assert_eq!(unit.history.kept, blocks(43, 9));
    assert_eq!(unit.history.building, None);
    assert_eq!((byte(&unit, 0x49), value(&unit)), (0x04, 9));
}

#[test]
fn a_building_history_cut_at_42_replaces_nothing() {
    let mut unit = building_unit(42);
    lock_ticks(&mut unit, 127, 9);
    switch_to(&mut unit, 3);
    assert_building(&unit, 0);
    fill(&mut unit, 42, 9);
    assert_building(&unit, 42);
}

#[test]
fn what_replaced_goes_on_filling_up_to_64() {
    let mut unit = building_unit(42);
    fill(&mut unit, 1 + 21, 9);
    assert_eq!(unit.history.kept, blocks(64, 9));
    fill(&mut unit, 1, 10);
    assert_eq!(unit.history.kept.len(), 64);
    assert_eq!(unit.history.kept[63], sum(10));
    assert_eq!(unit.history.building, None);
}

/// Blocks that are not enough for Ready stay in use too, as 64 do, and are
/// replaced.
#[test]
fn few_or_all_kept_blocks_wait_as_well() {
    for (kept, ready) in [(5, false), (64, true)] {
        let mut unit = ready_unit();
        write(&mut unit, 0x26, 3);
        fill(&mut unit, kept, 7);
        switch_to(&mut unit, 2);
        fill(&mut unit, 42, 9);
        assert_eq!(unit.history.kept, blocks(kept as usize, 7));
        assert_eq!(unit.ready(), ready);
        fill(&mut unit, 1, 9);
        assert_eq!(unit.history.kept, blocks(43, 9));
        assert!(!unit.history.builds());
    }
}

/// "A switch under policy 1 leaves whichever history is filling as it is."
#[test]
fn a_switch_under_policy_1_leaves_the_kept_blocks_filling() {
    let mut unit = ready_unit();
    write(&mut unit, 0x25, 1);
    switch_to(&mut unit, 2);
    assert_eq!(unit.history.kept, blocks(43, 7));
    fill(&mut unit, 1, 9);
    assert_eq!(unit.history.kept.len(), 44);
    assert_eq!(unit.history.building, None);
}

#[test]
fn a_switch_under_policy_1_leaves_the_building_history_filling() {
    for built in [20, 42] {
        let mut unit = building_unit(built);
        write(&mut unit, 0x25, 1);
        switch_to(&mut unit, 3);
        assert_building(&unit, built as usize);
        fill(&mut unit, 43 - built, 9);
        assert_eq!(unit.history.kept, blocks(43, 9));
    }
}

#[test]
fn writing_the_policy_changes_no_history() {
    for unit in [building_unit(20), ready_unit()] {
        for policy in [1, 0, 0, 1, 1] {
            let mut written = unit.clone();
            write(&mut written, 0x25, policy);
            assert_eq!(written.history, unit.history);
        }
    }
}

/// "Command 1 saves the blocks in use"
#[test]
fn command_1_saves_the_blocks_in_use_while_another_history_builds() {
    let mut unit = building_unit(42);
    lock_ticks(&mut unit, 5, 9);
    let mut expected = unit.history.clone();
    expected.backup = Some(blocks(43, 7));
    write(&mut unit, 0x26, 1);
    assert_eq!(unit.history, expected);
    assert_eq!(byte(&unit, 0x49), 0x0c);
}

/// "2 replaces those and empties the building history; [...] Either also
/// empties the open block, and a history that was building goes on building
/// from nothing."
#[test]
fn command_2_replaces_the_blocks_in_use_and_building_goes_on_from_nothing() {
    let mut unit = ready_unit();
    write(&mut unit, 0x26, 1);
    fill(&mut unit, 3, 8);
    switch_to(&mut unit, 2);
    fill(&mut unit, 42, 9);
    lock_ticks(&mut unit, 127, 9);
    assert_eq!(unit.history.kept.len(), 46);
    write(&mut unit, 0x26, 2);
    assert_building(&unit, 0);
    assert_eq!(unit.history.open, OpenBlock::EMPTY);
    assert_eq!(unit.history.backup, Some(blocks(43, 7)));
    fill(&mut unit, 42, 9);
    assert_building(&unit, 42);
    fill(&mut unit, 1, 9);
    assert_eq!(unit.history.kept, blocks(43, 9));
}

/// "3 empties both."
#[test]
fn command_3_empties_both_and_building_goes_on_from_nothing() {
    let mut unit = building_unit(42);
    write(&mut unit, 0x26, 1);
    lock_ticks(&mut unit, 127, 9);
    write(&mut unit, 0x26, 3);
    assert_eq!(unit.history.kept, Blocks::new());
    assert_eq!(unit.history.building, Some(Blocks::new()));
    assert_eq!(unit.history.open, OpenBlock::EMPTY);
    assert_eq!((byte(&unit, 0x49), value(&unit)), (0x08, 0));
    // The backup has stayed; what it replaces is not what fills.
    write(&mut unit, 0x26, 2);
    fill(&mut unit, 1, 9);
    assert_building(&unit, 1);
}

#[test]
fn commands_2_and_3_start_no_building() {
    for (command, kept) in [(2, 43), (3, 0)] {
        let mut unit = ready_unit();
        write(&mut unit, 0x26, 1);
        lock_ticks(&mut unit, 127, 9);
        write(&mut unit, 0x26, command);
        assert_eq!(unit.history.open, OpenBlock::EMPTY);
        assert_eq!(unit.history.building, None);
        fill(&mut unit, 1, 9);
        assert_eq!(unit.history.kept.len(), kept + 1);
    }
}

#[test]
fn command_0_changes_no_history() {
    let mut unit = building_unit(20);
    lock_ticks(&mut unit, 5, 9);
    let before = unit.history.clone();
    write(&mut unit, 0x26, 0);
    assert_eq!(unit.history, before);
}

/// Refusal 8 asks the blocks in use, not those that are building.
#[test]
fn command_1_is_refused_by_the_blocks_in_use() {
    let mut unit = automatic(&[1]);
    fill(&mut unit, 42, 9);
    refuse(&mut unit, write_event(0x26, 1), 8);
    refuse(&mut unit, write_event(0x26, 2), 8);
    fill(&mut unit, 1, 9);
    write(&mut unit, 0x26, 1);
    write(&mut unit, 0x26, 3);
    refuse(&mut unit, write_event(0x26, 1), 8);

    let mut unit = building_unit(0);
    write(&mut unit, 0x26, 1);
}

/// A Hit empties the open block, and no blocks.
#[test]
fn a_hit_leaves_both_histories() {
    let mut unit = building_unit(20);
    lock_ticks(&mut unit, 127, 9);
    hit(&mut unit);
    assert_eq!(unit.history.open, OpenBlock::EMPTY);
    assert_building(&unit, 20);
    assert_eq!(byte(&unit, 0x48), 0x10);
    clean_ticks(&mut unit, 79);
    fill(&mut unit, 1, 9);
    assert_building(&unit, 21);
}

/// The tick that leaves Locked empties the open block alone.
#[test]
fn losing_lock_leaves_both_histories() {
    let mut unit = building_unit(20);
    lock_ticks(&mut unit, 127, 9);
    clean_ticks(&mut unit, 1);
    assert_eq!(unit.history.open, OpenBlock::EMPTY);
    assert_building(&unit, 20);
}

/// The new clock dies before its history is built: Holdover on the old value.
#[test]
fn the_kept_value_is_held_when_the_new_clock_dies() {
    for built in [0, 42] {
        let mut unit = building_unit(built);
        measure(&mut unit, 2, -128);
        clean_ticks(&mut unit, 1);
        assert_eq!((byte(&unit, 0x48), value(&unit)), (0x10, 7));
    }
}
