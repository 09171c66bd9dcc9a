//! The faults of #104: the calls that set and assign bucket sets, and ticks
//! under their numbers.

use crate::faults::*;
use differ::fields::Fields;
use model::{BucketSet, Buckets, Call, Input, Unit};

/// Takes the call rightly, then alters the inputs that an accepted one concerns,
/// each beside what it was.
fn then_each(unit: &mut Unit, call: Call, alter: fn(&Input, &mut Input)) -> u8 {
    then_after_call(unit, call, |before, after| {
        for input in concerned(&after.buckets, call) {
            let place = usize::from(input) - 1;
            alter(&before.inputs[place], &mut after.inputs[place]);
        }
    })
}

/// The inputs that an accepted call concerns.
fn concerned(buckets: &Buckets, call: Call) -> Vec<u8> {
    match call {
        Call::SetBucket { set, .. } => buckets.inputs_with(set),
        Call::AssignBucket { input, .. } => vec![input],
        Call::SetWeek { .. } | Call::SetWindows { .. } => Vec::new(),
    }
}

/// Accepts a setting that is refused, if this holds of its numbers.
fn let_through(unit: &mut Unit, call: Call, wrong: fn(&BucketSet) -> bool) -> u8 {
    let refusal = right_call(unit, call);
    match call {
        Call::SetBucket { set, numbers } if refusal != 0 && set <= 3 && wrong(&numbers) => {
            unit.buckets.sets[usize::from(set)] = numbers;
            for input in unit.buckets.inputs_with(set) {
                unit.inputs[usize::from(input) - 1].start_bucket(&numbers);
            }
            0
        }
        _ => refusal,
    }
}

/// Takes a tick with other bucket sets, which are put back after it.
fn tick_with_buckets(unit: &mut Unit, fields: Fields, alter: fn(&mut Buckets)) -> u8 {
    let buckets = unit.buckets;
    if is_tick(fields) {
        alter(&mut unit.buckets);
    }
    let refusal = right_event(unit, fields);
    unit.buckets = buckets;
    refusal
}

/// Takes a tick in which the level falls after fewer ticks than 2^d.
fn tick_with_decay(unit: &mut Unit, fields: Fields, ticks: fn(u8) -> u8) -> u8 {
    if is_tick(fields) {
        for number in 1..=8 {
            let set = unit.buckets.of(number);
            let input = &mut unit.inputs[usize::from(number) - 1];
            if input.decay + 1 == ticks(set.decay) {
                input.decay = set.decay_ticks() - 1;
            }
        }
    }
    right_event(unit, fields)
}

pub static FAULTS: &[Fault] = &[
    in_call("U above S let through", |unit, call| {
        let_through(unit, call, |numbers| {
            numbers.set_level > numbers.size && numbers.clear_level < numbers.set_level
        })
    }),
    in_call("L = U let through", |unit, call| {
        let_through(unit, call, |numbers| {
            numbers.clear_level == numbers.set_level && numbers.set_level <= numbers.size
        })
    }),
    in_call("the upper bits of d dropped", |unit, call| match call {
        Call::SetBucket { set, mut numbers } => {
            numbers.decay &= 3;
            right_call(unit, Call::SetBucket { set, numbers })
        }
        _ => right_call(unit, call),
    }),
    in_call("set 4 taken for set 0", |unit, call| {
        let call = match call {
            Call::SetBucket { set, numbers } => Call::SetBucket {
                set: set % 4,
                numbers,
            },
            Call::AssignBucket { input, set } => Call::AssignBucket {
                input,
                set: set % 4,
            },
            _ => call,
        };
        right_call(unit, call)
    }),
    in_call("S = 255 refused", |unit, call| match call {
        Call::SetBucket { numbers, .. } if numbers.size == 255 => 14,
        _ => right_call(unit, call),
    }),
    in_call("14 before 6", |unit, call| match call {
        Call::AssignBucket { set, .. } if set > 3 => 14,
        _ => right_call(unit, call),
    }),
    in_call("a refused call changes the state", |unit, call| {
        let refusal = right_call(unit, call);
        if refusal != 0 {
            unit.inputs[0].decay ^= 1;
        }
        refusal
    }),
    in_call("alarm not set by an assignment", |unit, call| match call {
        Call::AssignBucket { .. } => then_each(unit, call, |before, after| {
            after.activity_alarm = before.activity_alarm;
        }),
        _ => right_call(unit, call),
    }),
    in_call("alarm not set by a setting", |unit, call| match call {
        Call::SetBucket { .. } => then_each(unit, call, |before, after| {
            after.activity_alarm = before.activity_alarm;
        }),
        _ => right_call(unit, call),
    }),
    in_call("decay count kept by a call", |unit, call| {
        then_each(unit, call, |before, after| after.decay = before.decay)
    }),
    in_call("level kept by a call", |unit, call| {
        then_each(unit, call, |before, after| after.level = before.level)
    }),
    in_call("level above S kept by a call", |unit, call| {
        then_each(unit, call, |before, after| {
            after.level = after.level.max(before.level);
        })
    }),
    in_call("soak zeroed by a call", |unit, call| {
        then_each(unit, call, |_, after| after.soak = 0)
    }),
    in_call("setting concerns all inputs", |unit, call| {
        then_after_call(unit, call, |_, after| {
            if let Call::SetBucket { numbers, .. } = call {
                for input in &mut after.inputs {
                    input.start_bucket(&numbers);
                }
            }
        })
    }),
    in_call("setting concerns no input", |unit, call| {
        then_after_call(unit, call, |before, after| {
            if let Call::SetBucket { .. } = call {
                after.inputs = before.inputs;
            }
        })
    }),
    in_call("setting as it was does nothing", |unit, call| {
        then_after_call(unit, call, |before, after| {
            if matches!(call, Call::SetBucket { .. }) && before.buckets == after.buckets {
                after.inputs = before.inputs;
            }
        })
    }),
    in_call("assigning as it was does nothing", |unit, call| {
        then_after_call(unit, call, |before, after| {
            if matches!(call, Call::AssignBucket { .. }) && before.buckets == after.buckets {
                after.inputs = before.inputs;
            }
        })
    }),
    in_call("a call drops the reference at once", |unit, call| {
        then_after_call(unit, call, |_, after| {
            let selected = after.selected;
            if concerned(&after.buckets, call).contains(&selected) {
                after.selected = 0;
            }
        })
    }),
    in_event("set 0's numbers used for all", |unit, fields| {
        tick_with_buckets(unit, fields, |buckets| buckets.assigned = [0; 8])
    }),
    in_event("the fresh numbers used for all", |unit, fields| {
        tick_with_buckets(unit, fields, |buckets| *buckets = Buckets::fresh())
    }),
    in_event("input 8's set used for all", |unit, fields| {
        tick_with_buckets(unit, fields, |buckets| {
            buckets.assigned = [buckets.assigned[7]; 8];
        })
    }),
    in_event("decay of d ticks", |unit, fields| {
        tick_with_decay(unit, fields, |decay| decay)
    }),
    in_event("decay of 2 times d ticks", |unit, fields| {
        tick_with_decay(unit, fields, |decay| 2 * decay)
    }),
    in_event("alarm set at 6 in each set", |unit, fields| {
        tick_with_buckets(unit, fields, |buckets| {
            for set in &mut buckets.sets {
                set.set_level = 6;
            }
        })
    }),
    in_event("alarm cleared at 4 in each set", |unit, fields| {
        tick_with_buckets(unit, fields, |buckets| {
            for set in &mut buckets.sets {
                set.clear_level = 4;
            }
        })
    }),
];
