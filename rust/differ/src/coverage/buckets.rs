//! The items of #104: the two calls at and beyond each bound, what they do to
//! the inputs, and ticks under the numbers of other sets than the fresh one.

use super::{family, singles, Condition, Moment, SingleCondition};
use model::{BucketSet, Buckets, Call, Input};

impl Moment<'_> {
    /// A call, the tick after it, or any event under other sets than the fresh
    /// ones.
    pub fn concerns_buckets(&self) -> bool {
        let inputs = &self.before.inputs;
        self.call.is_some()
            || self.before.buckets != Buckets::fresh()
            || inputs.iter().any(alarm_beside_soak)
    }

    /// The set and numbers of a setting with this answer.
    fn setting(&self, refusal: u8) -> Option<(u8, BucketSet)> {
        match self.call {
            Some(Call::SetBucket { set, numbers }) if self.refusal == refusal => {
                Some((set, numbers))
            }
            _ => None,
        }
    }

    /// The input and set of an assignment with this answer.
    fn assignment(&self, refusal: u8) -> Option<(u8, u8)> {
        match self.call {
            Some(Call::AssignBucket { input, set }) if self.refusal == refusal => {
                Some((input, set))
            }
            _ => None,
        }
    }

    fn accepted_call(&self) -> bool {
        self.refusal == 0 && self.call.is_some()
    }

    /// A setting of a set that there is, with numbers of which this holds.
    fn set_with(&self, refusal: u8, holds: fn(&BucketSet) -> bool) -> bool {
        self.setting(refusal)
            .map_or(false, |(set, numbers)| set <= 3 && holds(&numbers))
    }

    /// An accepted setting, and how many inputs have the set.
    fn inputs_set(&self) -> Option<usize> {
        let (set, _) = self.setting(0)?;
        Some(self.after.buckets.inputs_with(set).len())
    }

    /// An accepted call, and some input that it changes so.
    fn call_changes(&self, holds: fn(&Input, &Input) -> bool) -> bool {
        self.accepted_call() && self.some_input(holds)
    }

    /// A tick, and some input with other numbers than the fresh ones of which
    /// this holds, before and after.
    fn some_bucket(&self, holds: impl Fn(&BucketSet, &Input, &Input) -> bool) -> bool {
        let holds_of = |input| {
            let set = self.after.buckets.of(input);
            let (before, after) = (self.before.input(input), self.after.input(input));
            set != BucketSet::FRESH && holds(&set, before, after)
        };
        self.accepted_tick() && (1..=8).any(holds_of)
    }

    /// The first tick after a call, and some input that the call concerned and
    /// that had begun to soak.
    fn first_after_call(&self, holds: fn(&Input) -> bool) -> bool {
        let holds_of =
            |input| alarm_beside_soak(self.before.input(input)) && holds(self.after.input(input));
        self.accepted_tick() && (1..=8).any(holds_of)
    }

    /// As `first_after_call`, for the reference that was selected.
    fn selected_after_call(&self) -> bool {
        let before = self.before;
        self.accepted_tick()
            && before.reference_selected()
            && alarm_beside_soak(before.input(before.selected))
    }
}

/// Only a call leaves an activity alarm beside a soak: a tick ends the one or
/// the other.
fn alarm_beside_soak(input: &Input) -> bool {
    input.activity_alarm && input.soak > 0
}

/// Whether the alarm is neither set nor cleared at this level, but kept.
fn between(set: &BucketSet, input: &Input) -> bool {
    set.clear_level < input.level && input.level < set.set_level
}

/// The items, each with its condition.
pub fn conditions() -> Vec<(String, Condition)> {
    let mut list = family(
        0..=3,
        |set| format!("bucket set {} set", set),
        |m, set| m.setting(0).map_or(false, |(other, _)| other == set),
    );
    list.extend(family(
        0..=3,
        |decay| format!("bucket set with decay {} set", decay),
        |m, decay| {
            m.setting(0)
                .map_or(false, |(_, numbers)| numbers.decay == decay)
        },
    ));
    list.extend(family(
        0..=3,
        |set| format!("bucket set {} assigned", set),
        |m, set| m.assignment(0).map_or(false, |(_, other)| other == set),
    ));
    list.extend(family(
        1..=8,
        |input| format!("input {} given a bucket set", input),
        |m, input| m.assignment(0).map_or(false, |(other, _)| other == input),
    ));
    list.extend(family(
        [4, 255],
        |set| format!("bucket set {} refused with 14", set),
        |m, set| {
            let good = |(other, numbers): (u8, BucketSet)| other == set && numbers.within_bounds();
            let assigned = m.assignment(14).map_or(false, |(_, other)| other == set);
            m.setting(14).map_or(false, good) || assigned
        },
    ));
    list.extend(family(
        [4, 255],
        |decay| format!("bucket set with decay {} refused with 14", decay),
        |m, decay| {
            let bad = |(set, numbers): (u8, BucketSet)| {
                let otherwise = BucketSet {
                    decay: 0,
                    ..numbers
                };
                set <= 3 && numbers.decay == decay && otherwise.within_bounds()
            };
            m.setting(14).map_or(false, bad)
        },
    ));
    list.extend(family(
        [0, 9, 255],
        |input| format!("input {} refused with 6 by an assignment", input),
        |m, input| m.assignment(6).map_or(false, |(other, _)| other == input),
    ));
    list.extend(family(
        0..=3,
        |decay| format!("level that falls with decay {}", decay),
        |m, decay| {
            m.some_bucket(|set, before, after| set.decay == decay && after.level < before.level)
        },
    ));
    list.extend(singles(CONDITIONS));
    list
}

/// The items that are not one of a family.
const CONDITIONS: &[(&str, SingleCondition)] = &[
    ("bucket set with U = S set", |m| {
        m.set_with(0, |n| n.set_level == n.size)
    }),
    ("bucket set with L = U - 1 set", |m| {
        m.set_with(0, |n| n.clear_level + 1 == n.set_level)
    }),
    ("bucket set with L = 0 set", |m| {
        m.set_with(0, |n| n.clear_level == 0)
    }),
    ("bucket set with S = 255 set", |m| {
        m.set_with(0, |n| n.size == 255)
    }),
    ("bucket set with U = S + 1 alone refused", |m| {
        m.set_with(14, |n| {
            n.size < 255 && n.set_level == n.size + 1 && n.clear_level < n.set_level && n.decay <= 3
        })
    }),
    ("bucket set with L = U alone refused", |m| {
        m.set_with(14, |n| {
            n.clear_level == n.set_level && n.set_level <= n.size && n.decay <= 3
        })
    }),
    ("bucket set with L > U alone refused", |m| {
        m.set_with(14, |n| {
            n.clear_level > n.set_level && n.set_level <= n.size && n.decay <= 3
        })
    }),
    ("bucket set over 3 set, refused alone by its number", |m| {
        m.setting(14)
            .map_or(false, |(set, numbers)| set > 3 && numbers.within_bounds())
    }),
    ("bucket set over 3 assigned, refused with 14", |m| {
        m.assignment(14).is_some()
    }),
    (
        "bucket set over 3 assigned to no input, refused with 6",
        |m| m.assignment(6).map_or(false, |(_, set)| set > 3),
    ),
    ("bucket set set that no input has", |m| {
        m.inputs_set() == Some(0)
    }),
    ("bucket set set that one input has", |m| {
        m.inputs_set() == Some(1)
    }),
    ("bucket set set that some inputs have", |m| {
        m.inputs_set().map_or(false, |count| 1 < count && count < 8)
    }),
    ("bucket set set that all inputs have", |m| {
        m.inputs_set() == Some(8)
    }),
    ("bucket set set as it was, with inputs", |m| {
        m.inputs_set().map_or(false, |count| count > 0) && m.before.buckets == m.after.buckets
    }),
    ("bucket set assigned as it was", |m| {
        m.assignment(0).is_some() && m.before.buckets == m.after.buckets
    }),
    ("activity alarm set by a call", |m| {
        m.call_changes(|before, after| !before.activity_alarm && after.activity_alarm)
    }),
    ("decay count zeroed by a call", |m| {
        m.call_changes(|before, after| before.decay > 0 && after.decay == 0)
    }),
    ("level above the new size taken down by a call", |m| {
        m.call_changes(|before, after| before.level > after.level)
    }),
    ("call on an input that soaks", |m| {
        m.call_changes(|before, after| before.level != after.level && 0 < after.soak)
    }),
    ("clean tick that clears a call's alarm, soak goes on", |m| {
        m.first_after_call(|after| after.soak > 0)
    }),
    ("tick in which a call's alarm ends the soak", |m| {
        m.first_after_call(|after| after.soak == 0)
    }),
    ("reference kept although a call set its alarm", |m| {
        m.selected_after_call() && !m.selection_changed()
    }),
    ("reference lost since a call set its alarm", |m| {
        m.selected_after_call() && m.selection_changed()
    }),
    ("level that stays at the size of its set", |m| {
        m.some_bucket(|set, before, after| {
            before.level == set.size && after.level == set.size && after.decay == 0
        })
    }),
    ("level that rises to 255", |m| {
        m.some_bucket(|_, before, after| before.level < 255 && after.level == 255)
    }),
    ("level that falls to 0", |m| {
        m.some_bucket(|_, before, after| before.level > 0 && after.level == 0)
    }),
    ("activity alarm set at its set's own level", |m| {
        m.some_bucket(|set, before, after| {
            !before.activity_alarm && after.activity_alarm && after.level == set.set_level
        })
    }),
    ("activity alarm cleared at its set's own level", |m| {
        m.some_bucket(|set, before, after| {
            before.activity_alarm && !after.activity_alarm && after.level == set.clear_level
        })
    }),
    ("activity alarm kept between its set's levels", |m| {
        m.some_bucket(|set, _, after| between(set, after) && after.activity_alarm)
    }),
    ("no activity alarm between its set's levels", |m| {
        m.some_bucket(|set, _, after| between(set, after) && !after.activity_alarm)
    }),
    ("decay count of 2 or more zeroed by a tick", |m| {
        m.some_bucket(|_, before, after| before.decay >= 2 && after.level > before.level)
    }),
    ("tick with inputs that have unlike sets", |m| {
        let buckets = &m.after.buckets;
        m.accepted_tick() && (2..=8).any(|input| buckets.of(input) != buckets.of(1))
    }),
];
