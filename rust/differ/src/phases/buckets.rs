//! The phases of #104: bucket sets that are set and assigned, and ticks under
//! their numbers.

use super::{any_input, automatic_control, bit, measure_well, selected_or_any};
use crate::device::Device;
use crate::draw;
use crate::list::{List, Step};
use model::{BucketSet, Call};

/// Calls of every kind, many of them refused, with a few ticks between.
pub fn any_bucket_calls<D: Device>(list: &mut List<D>) -> Step {
    for _ in 0..list.random.between(1, 8) {
        let random = &mut list.random;
        let calls = [
            draw::any_bucket_call(random),
            draw::refused_bucket_call(random),
        ];
        let call = random.pick(&calls);
        list.send(call)?;
        let (irregular, count) = (list.random.byte(), list.random.below(4));
        for _ in 0..count {
            list.tick(irregular, true)?;
        }
    }
    perhaps_as_fresh(list)
}

/// Sets that inputs have or have not, set anew or as they were, and inputs that
/// get another set or the one that they have.
pub fn other_bucket_sets<D: Device>(list: &mut List<D>) -> Step {
    for _ in 0..list.random.between(1, 4) {
        let selected = selected_or_any(list);
        let any = any_input(&mut list.random);
        let input = list.random.pick(&[selected, any]);
        let set = draw::bucket_set(&mut list.random);
        let numbers = draw::bucket_numbers(&mut list.random);
        let buckets = list.unit().buckets;
        let own_set = buckets.assigned[usize::from(input) - 1];
        let call = list.random.pick(&[
            Call::SetBucket { set, numbers },
            Call::SetBucket {
                set: own_set,
                numbers,
            },
            Call::SetBucket {
                set: own_set,
                numbers: buckets.of(input),
            },
            Call::AssignBucket { input, set },
            Call::AssignBucket {
                input,
                set: own_set,
            },
        ]);
        list.send(call)?;
        let count = list.random.pick(&[0, 1, 2, 20, 90]);
        list.ticks(count, true)?;
    }
    perhaps_as_fresh(list)
}

/// An input gets a set, and its bucket is brought near the set's levels from
/// both sides.
pub fn bucket_levels<D: Device>(list: &mut List<D>) -> Step {
    let input = selected_or_any(list);
    let set = draw::bucket_set(&mut list.random);
    let numbers = draw::bucket_numbers(&mut list.random);
    list.set_bucket(set, numbers)?;
    list.assign_bucket(input, set)?;
    measure_well(list, input)?;
    let (size, set_level) = (u32::from(numbers.size), u32::from(numbers.set_level));
    let to_clear = numbers.size - numbers.clear_level;
    fall(list, numbers, to_clear)?;
    for _ in 0..list.random.between(1, 3) {
        let count = list.random.pick(&[1, set_level, set_level, size, 2 * size]);
        for _ in 0..count + list.random.below(3) - 1 {
            list.tick(bit(input), true)?;
        }
        let levels = list.random.pick(&[1, to_clear, to_clear, numbers.size]);
        fall(list, numbers, levels)?;
    }
    let count = list.random.pick(&[0, 0, 80]);
    list.ticks(count, true)?;
    perhaps_as_fresh(list)
}

/// As many clean ticks as a fall by so many levels takes, or one less or more.
fn fall<D: Device>(list: &mut List<D>, numbers: BucketSet, levels: u8) -> Step {
    let ticks = u32::from(levels) * u32::from(numbers.decay_ticks());
    let count = ticks + list.random.below(3) - 1;
    list.ticks(count, true)
}

/// A call on an input that soaks or is selected; the alarm is often cleared by
/// the next tick, if that is clean.
pub fn call_while_soaking<D: Device>(list: &mut List<D>) -> Step {
    let input = selected_or_any(list);
    let set = draw::bucket_set(&mut list.random);
    let clear_level = list.random.pick(&[0, 1, 7, 254]);
    let quick = BucketSet::of(clear_level + 1, clear_level + 1, clear_level, 0);
    let slow = draw::bucket_numbers(&mut list.random);
    let numbers = list.random.pick(&[quick, quick, quick, slow]);
    list.set_bucket(set, numbers)?;
    list.assign_bucket(input, 0)?;
    measure_well(list, input)?;
    if list.random.one_in(2) {
        automatic_control(list)?;
    }
    let count = list.random.pick(&[9, 40, 85, 86, 87, 100]);
    list.ticks(count, true)?;
    list.assign_bucket(input, set)?;
    let irregular = list.random.pick(&[0, 0, 0, bit(input)]);
    list.tick(irregular, true)?;
    let count = list.random.pick(&[0, 1, 80]);
    list.ticks(count, true)?;
    perhaps_as_fresh(list)
}

/// Most often the sets and assignments of a fresh unit again, and the ticks in
/// which the alarms of that are cleared: what follows need not wait long.
fn perhaps_as_fresh<D: Device>(list: &mut List<D>) -> Step {
    if list.random.one_in(3) {
        return Ok(());
    }
    for set in 0..=3 {
        if list.unit().buckets.sets[usize::from(set)] != BucketSet::FRESH {
            list.set_bucket(set, BucketSet::FRESH)?;
        }
    }
    for input in 1..=8 {
        if list.unit().buckets.assigned[usize::from(input) - 1] != 0 {
            list.assign_bucket(input, 0)?;
        }
    }
    let count = list.random.pick(&[0, 8, 90]);
    list.ticks(count, true)
}
