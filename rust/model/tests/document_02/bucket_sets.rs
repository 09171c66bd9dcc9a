//! #104: the four bucket sets, the set of each input, and what setting and
//! assigning do.

use crate::bench::*;
use crate::calls::{accept_call, refuse_call};
use model::{BucketSet, Call, Input, Unit};

fn set_call(set: u8, numbers: BucketSet) -> Call {
    Call::SetBucket { set, numbers }
}

fn assign_call(input: u8, set: u8) -> Call {
    Call::AssignBucket { input, set }
}

fn set(unit: &mut Unit, set: u8, numbers: BucketSet) {
    accept_call(unit, set_call(set, numbers));
}

fn assign(unit: &mut Unit, input: u8, set: u8) {
    accept_call(unit, assign_call(input, set));
}

/// A unit whose input 1 has set 1 with these numbers, and is at level 0.
fn with_set(numbers: BucketSet) -> Unit {
    let mut unit = Unit::fresh();
    set(&mut unit, 1, numbers);
    assign(&mut unit, 1, 1);
    clean_ticks(&mut unit, 255 * 8);
    assert_eq!(unit.input(1).level, 0);
    unit
}

/// The inputs whose buckets are at this level, with the alarm set and the decay
/// count 0.
fn started(unit: &Unit, level: u8) -> Vec<u8> {
    let at_start = |&input: &u8| {
        let input = unit.input(input);
        input.level == level && input.activity_alarm && input.decay == 0
    };
    (1..=8).filter(at_start).collect()
}

/// "Each input has one of four sets, at first set 0" and "All sets start as 8,
/// 6, 4, 1."
#[test]
fn all_inputs_start_with_set_0_and_all_sets_alike() {
    let unit = Unit::fresh();
    assert_eq!(unit.buckets.assigned, [0; 8]);
    assert_eq!(unit.buckets.sets, [BucketSet::of(8, 6, 4, 1); 4]);
}

/// "with L < U ≤ S ≤ 255 and d from 0 to 3"
#[test]
fn the_bounds_of_a_set() {
    let mut unit = Unit::fresh();
    for accepted in [
        BucketSet::of(1, 1, 0, 0),
        BucketSet::of(255, 255, 254, 3),
        BucketSet::of(255, 1, 0, 3),
        BucketSet::of(10, 10, 9, 2),
        BucketSet::of(8, 6, 4, 1),
    ] {
        for number in 0..=3 {
            set(&mut unit, number, accepted);
        }
    }
    for refused in [
        BucketSet::of(0, 0, 0, 0),
        BucketSet::of(7, 8, 4, 1),
        BucketSet::of(254, 255, 0, 0),
        BucketSet::of(8, 6, 6, 1),
        BucketSet::of(10, 6, 7, 1),
        BucketSet::of(255, 255, 255, 3),
        BucketSet::of(8, 6, 4, 4),
        BucketSet::of(8, 6, 4, 255),
    ] {
        for number in [0, 3, 4, 255] {
            refuse_call(&mut unit, set_call(number, refused), 14);
        }
    }
    for number in [4, 5, 255] {
        refuse_call(&mut unit, set_call(number, BucketSet::FRESH), 14);
    }
}

/// "set number over 3; an input not 1 to 8 gives 6 and is checked before it"
#[test]
fn the_bounds_of_an_assignment() {
    let mut unit = Unit::fresh();
    for input in 1..=8 {
        for number in 0..=3 {
            assign(&mut unit, input, number);
            assert_eq!(unit.buckets.assigned[usize::from(input) - 1], number);
        }
        for number in [4, 255] {
            refuse_call(&mut unit, assign_call(input, number), 14);
        }
    }
    for input in [0, 9, 255] {
        for number in [0, 3, 4, 255] {
            refuse_call(&mut unit, assign_call(input, number), 6);
        }
    }
}

/// "Setting or assigning a set, even as it was, puts each input it concerns at
/// level S, alarm set, decay count 0.": assigning concerns the one input.
#[test]
fn assigning_starts_the_bucket_of_its_input() {
    let mut unit = Unit::fresh();
    set(&mut unit, 2, BucketSet::of(20, 10, 5, 3));
    clean_ticks(&mut unit, 1);
    assert_eq!(started(&unit, 20), []);
    for _ in 0..2 {
        assign(&mut unit, 3, 2);
        assert_eq!(started(&unit, 20), [3]);
        clean_ticks(&mut unit, 12);
        assert_eq!((unit.input(3).level, unit.input(3).decay), (19, 4));
    }
    assign(&mut unit, 3, 0);
    assert_eq!(started(&unit, 8), [3]);
}

/// Setting concerns the inputs that have the set now.
#[test]
fn setting_starts_the_buckets_of_the_inputs_with_that_set() {
    let mut unit = Unit::fresh();
    for input in [2, 5, 8] {
        assign(&mut unit, input, 3);
    }
    assign(&mut unit, 4, 1);
    assign(&mut unit, 8, 0);
    clean_ticks(&mut unit, 3);
    let before = unit.clone();
    set(&mut unit, 3, BucketSet::of(30, 6, 4, 1));
    assert_eq!(started(&unit, 30), [2, 5]);
    for input in [1, 3, 4, 6, 7, 8] {
        assert_eq!(unit.input(input), before.input(input));
    }
    // A set that no input has.
    let before = unit.inputs;
    set(&mut unit, 2, BucketSet::of(40, 6, 4, 1));
    assert_eq!(unit.inputs, before);
}

/// "even as it was", and "each input it concerns" alone: the others stay.
#[test]
fn a_call_starts_the_buckets_it_concerns_alone() {
    let largest = BucketSet::of(255, 1, 0, 3);
    for (calls, level, concerned) in [
        (&[set_call(0, BucketSet::FRESH)][..], 8, 1..=8),
        (&[assign_call(2, 0)], 8, 2..=2),
        (&[assign_call(2, 1), set_call(1, largest)], 255, 2..=2),
    ] {
        let mut unit = Unit::fresh();
        clean_ticks(&mut unit, 1);
        let mut expected = unit.inputs;
        for input in concerned {
            expected[input - 1] = Input {
                level,
                activity_alarm: true,
                ..Input::fresh()
            };
        }
        for &call in calls {
            accept_call(&mut unit, call);
        }
        assert_eq!(unit.inputs, expected);
    }
}

/// A set of a smaller size: the level is the new size, not the old level.
#[test]
fn a_smaller_set_takes_the_level_with_it() {
    let mut unit = with_set(BucketSet::of(100, 50, 20, 0));
    masked_ticks(&mut unit, 90, 0x01);
    assert_eq!(unit.input(1).level, 90);
    set(&mut unit, 1, BucketSet::of(5, 3, 1, 0));
    assert_eq!(started(&unit, 5), [1]);
    masked_ticks(&mut unit, 3, 0x01);
    assert_eq!(unit.input(1).level, 5);
}

/// The soak, the other alarms and all else wait for the next tick.
#[test]
fn a_call_changes_nothing_else() {
    let mut unit = automatic(&[1]);
    lock_ticks(&mut unit, 40, 5);
    let mut expected = unit.clone();
    set(&mut unit, 0, BucketSet::of(20, 10, 5, 3));
    expected.buckets.sets[0] = BucketSet::of(20, 10, 5, 3);
    for input in &mut expected.inputs {
        input.level = 20;
        input.activity_alarm = true;
        input.decay = 0;
    }
    assert_eq!(unit, expected);
    assert_eq!((byte(&unit, 0x46), byte(&unit, 0x48)), (0x01, 0x31));
    lock_ticks(&mut unit, 1, 5);
    assert_eq!((byte(&unit, 0x46), byte(&unit, 0x48)), (0x00, 0x00));
}

/// The size is the largest level, also 255; the fall ends at 0.
#[test]
fn the_level_goes_from_0_to_the_size() {
    for size in [1, 7, 9, 254, 255] {
        let mut unit = with_set(BucketSet::of(size, 1, 0, 0));
        masked_ticks(&mut unit, u32::from(size) - 1, 0x01);
        assert_eq!(unit.input(1).level, size - 1);
        masked_ticks(&mut unit, 3, 0x01);
        assert_eq!(unit.input(1).level, size);
        clean_ticks(&mut unit, u32::from(size) + 2);
        assert_eq!(unit.input(1).level, 0);
    }
}

/// The alarm: set at U or more, cleared at L or less, kept between.
#[test]
fn the_alarm_has_the_levels_of_the_set() {
    let mut unit = with_set(BucketSet::of(12, 10, 3, 0));
    let alarm = |unit: &Unit| (unit.input(1).level, unit.input(1).activity_alarm);
    masked_ticks(&mut unit, 9, 0x01);
    assert_eq!(alarm(&unit), (9, false));
    masked_ticks(&mut unit, 1, 0x01);
    assert_eq!(alarm(&unit), (10, true));
    clean_ticks(&mut unit, 6);
    assert_eq!(alarm(&unit), (4, true));
    masked_ticks(&mut unit, 2, 0x01);
    assert_eq!(alarm(&unit), (6, true));
    clean_ticks(&mut unit, 3);
    assert_eq!(alarm(&unit), (3, false));
    masked_ticks(&mut unit, 6, 0x01);
    assert_eq!(alarm(&unit), (9, false));
}

/// "decay of 2^d ticks"
#[test]
fn the_level_falls_every_1_2_4_or_8_ticks() {
    for (decay, ticks) in [(0, 1), (1, 2), (2, 4), (3, 8)] {
        let mut unit = with_set(BucketSet::of(9, 9, 8, decay));
        assign(&mut unit, 1, 1);
        for level in (0..9).rev() {
            clean_ticks(&mut unit, ticks - 1);
            assert_eq!(unit.input(1).level, level + 1);
            clean_ticks(&mut unit, 1);
            assert_eq!(unit.input(1).level, level);
        }
        // An irregular tick zeroes the decay count.
        masked_ticks(&mut unit, 2, 0x01);
        clean_ticks(&mut unit, ticks - 1);
        masked_ticks(&mut unit, 1, 0x01);
        clean_ticks(&mut unit, ticks - 1);
        assert_eq!(unit.input(1).level, 3);
    }
}

/// Inputs with other sets each follow their own.
#[test]
fn each_input_follows_its_own_set() {
    let mut unit = Unit::fresh();
    set(&mut unit, 1, BucketSet::of(3, 2, 1, 0));
    set(&mut unit, 2, BucketSet::of(200, 100, 50, 3));
    assign(&mut unit, 1, 1);
    assign(&mut unit, 2, 2);
    clean_ticks(&mut unit, 1_600);
    masked_ticks(&mut unit, 20, 0x07);
    let levels = [1, 2, 3, 4].map(|input| unit.input(input).level);
    assert_eq!(levels, [3, 20, 8, 0]);
    let alarms = [1, 2, 3, 4].map(|input| unit.input(input).activity_alarm);
    assert_eq!(alarms, [true, false, true, false]);
    clean_ticks(&mut unit, 8);
    let levels = [1, 2, 3, 4].map(|input| unit.input(input).level);
    assert_eq!(levels, [0, 19, 4, 0]);
}

/// With S = L + 1 and d = 0 the next tick, if clean, clears the alarm before
/// the soak is counted; with one level or one tick more it does not.
#[test]
fn the_soak_goes_on_where_one_clean_tick_clears_the_alarm() {
    for (numbers, mask, goes_on) in [
        (BucketSet::of(5, 5, 4, 0), 0x00, true),
        (BucketSet::of(5, 5, 4, 0), 0x01, false),
        (BucketSet::of(255, 255, 254, 0), 0x00, true),
        (BucketSet::of(6, 5, 4, 0), 0x00, false),
        (BucketSet::of(5, 5, 4, 1), 0x00, false),
        (BucketSet::of(1, 1, 0, 0), 0x00, true),
        (BucketSet::of(2, 1, 0, 0), 0x00, false),
    ] {
        for (soak, after) in [(40, 41), (79, 79)] {
            let mut unit = Unit::fresh();
            measure(&mut unit, 1, 0);
            clean_ticks(&mut unit, soak.into());
            set(&mut unit, 0, numbers);
            assert_eq!(unit.input(1).soak, soak);
            masked_ticks(&mut unit, 1, mask);
            assert_eq!(unit.input(1).soak, if goes_on { after } else { 0 });
        }
    }
}

/// "The promise of service then has 78 + the larger of 782 and (S − L) times
/// 2^d for its 860": from the call, the alarm is clear in tick (S − L) times
/// 2^d, which is the first of the soak's 79.
#[test]
fn an_input_qualifies_78_ticks_after_its_alarm_is_clear() {
    for (set_numbers, clear) in [
        (BucketSet::of(8, 6, 4, 1), 8),
        (BucketSet::of(255, 1, 0, 3), 2_040),
        (BucketSet::of(255, 255, 100, 3), 1_240),
        (BucketSet::of(200, 150, 50, 2), 600),
        (BucketSet::of(2, 2, 1, 0), 1),
    ] {
        let mut unit = automatic(&[2]);
        measure(&mut unit, 1, 0);
        set(&mut unit, 3, set_numbers);
        assign(&mut unit, 1, 3);
        clean_ticks(&mut unit, clear - 1);
        assert!(unit.input(1).activity_alarm);
        clean_ticks(&mut unit, 1);
        assert!(!unit.input(1).activity_alarm);
        clean_ticks(&mut unit, 77);
        assert!(!unit.input(1).qualified());
        clean_ticks(&mut unit, 1);
        assert!(unit.input(1).qualified());
    }
}
