//! The items of #106: what finer measurements at the limits do to the alarm,
//! the largest offsets, and fields of a measurement that are no event.

use super::{family, singles, Condition, Moment, SingleCondition};
use crate::fields::Fields;
use model::{finer_limit, Event, Input, Settings};

/// An accepted finer measurement, and its input's frequency alarm before and
/// after it.
struct Finer {
    offset: i16,
    before: bool,
    after: bool,
}

impl Finer {
    fn sets(&self) -> bool {
        !self.before && self.after
    }

    fn clears(&self) -> bool {
        self.before && !self.after
    }

    fn keeps_set(&self) -> bool {
        self.before && self.after
    }

    fn keeps_clear(&self) -> bool {
        !self.before && !self.after
    }
}

impl Moment<'_> {
    /// A measurement of either kind, or a kind over 4.
    pub fn concerns_readings(&self) -> bool {
        let of = |fields: Fields| fields.kind == 1 || fields.kind >= 4;
        self.fields.map_or(false, of)
    }

    /// An accepted finer measurement of which this holds, under its limits.
    fn finer(&self, holds: impl Fn(&Finer, &Settings) -> bool) -> bool {
        match self.event {
            Some(Event::FinerMeasurement { input, offset }) if self.refusal == 0 => {
                let [before, after] =
                    [self.before, self.after].map(|unit| unit.input(input).frequency_alarm);
                let finer = Finer {
                    offset,
                    before,
                    after,
                };
                holds(&finer, &self.after.settings)
            }
            _ => false,
        }
    }

    /// A finer measurement of this input, with this answer.
    fn finer_of(&self, input: u8, refusal: u8) -> bool {
        let measured = match self.event {
            Some(Event::FinerMeasurement { input, .. }) => Some(input),
            _ => None,
        };
        measured == Some(input) && self.refusal == refusal
    }

    /// A measurement of the old kind, and some input that it changes so.
    fn old_changes(&self, holds: fn(&Input, &Input) -> bool) -> bool {
        matches!(self.event, Some(Event::Measurement { .. })) && self.some_input(holds)
    }

    /// Fields of this kind that are no event, of which this holds.
    fn no_event(&self, kind: u8, holds: impl Fn(Fields) -> bool) -> bool {
        let of = |fields: Fields| fields.kind == kind && holds(fields);
        self.refusal == 12 && self.fields.map_or(false, of)
    }
}

/// An offset at one of the limits or a step beside it, and what it does.
type Edge = (&'static str, fn(&Settings) -> u16, fn(&Finer) -> bool);

const EDGES: [Edge; 9] = [
    (
        "cleared a step below 32 times the qualification limit",
        |settings| finer_limit(settings.qualification).saturating_sub(1),
        Finer::clears,
    ),
    (
        "cleared at 32 times the qualification limit",
        |settings| finer_limit(settings.qualification),
        Finer::clears,
    ),
    (
        "kept set a step beyond 32 times the qualification limit",
        |settings| finer_limit(settings.qualification) + 1,
        Finer::keeps_set,
    ),
    (
        "kept clear a step beyond 32 times the qualification limit",
        |settings| finer_limit(settings.qualification) + 1,
        Finer::keeps_clear,
    ),
    (
        "kept set a step below 32 times the reject limit",
        |settings| finer_limit(settings.reject) - 1,
        Finer::keeps_set,
    ),
    (
        "kept clear a step below 32 times the reject limit",
        |settings| finer_limit(settings.reject) - 1,
        Finer::keeps_clear,
    ),
    (
        "kept set at 32 times the reject limit",
        |settings| finer_limit(settings.reject),
        Finer::keeps_set,
    ),
    (
        "kept clear at 32 times the reject limit",
        |settings| finer_limit(settings.reject),
        Finer::keeps_clear,
    ),
    (
        "set a step beyond 32 times the reject limit",
        |settings| finer_limit(settings.reject) + 1,
        Finer::sets,
    ),
];

/// Whether a is an input.
fn good_input(fields: Fields) -> bool {
    (1..=8).contains(&fields.a)
}

/// Whether b is that of a finer measurement.
fn good_b(fields: Fields) -> bool {
    fields.b == 0
}

/// Whether the word is that of a finer measurement.
fn good_word(fields: Fields) -> bool {
    i16::try_from(fields.word).is_ok()
}

/// The items, each with its condition.
pub fn conditions() -> Vec<(String, Condition)> {
    let edges = EDGES.map(|edge| [(edge, "above", 1), (edge, "below", -1)]);
    let mut list = family(
        edges.into_iter().flatten(),
        |((name, _, _), side, _)| format!("finer measurement {} 0: alarm {}", side, name),
        |m, ((_, magnitude, does), _, sign)| {
            m.finer(|finer, settings| {
                let at_edge = finer.offset.unsigned_abs() == magnitude(settings);
                at_edge && finer.offset.signum() == sign && does(finer)
            })
        },
    );
    list.extend(family(
        [i16::MIN, i16::MAX],
        |offset| format!("finer measurement {}: alarm set", offset),
        |m, offset| m.finer(|finer, _| finer.offset == offset && finer.sets()),
    ));
    list.extend(family(
        1..=8,
        |input| format!("finer measurement of input {}", input),
        |m, input| m.finer_of(input, 0),
    ));
    list.extend(family(
        [0, 9],
        |input| format!("finer measurement of input {} refused with 6", input),
        |m, input| m.finer_of(input, 6),
    ));
    list.extend(family(
        [32_768, i32::MAX, -32_769, i32::MIN],
        |word| format!("kind 4 with the word {} alone at fault", word),
        |m, word| {
            m.no_event(4, |fields| {
                fields.word == word && good_input(fields) && good_b(fields)
            })
        },
    ));
    list.extend(family(
        [1, 255],
        |b| format!("kind 4 with b {} alone at fault", b),
        |m, b| {
            m.no_event(4, |fields| {
                fields.b == b && good_input(fields) && good_word(fields)
            })
        },
    ));
    list.extend(family(
        [5, 255],
        |kind| format!("kind {} with the fields of a finer measurement", kind),
        |m, kind| {
            m.no_event(kind, |fields| {
                good_input(fields) && good_b(fields) && good_word(fields)
            })
        },
    ));
    list.extend(singles(CONDITIONS));
    list
}

/// The items that are not one of a family.
const CONDITIONS: &[(&str, SingleCondition)] = &[
    ("finer measurement 0: alarm cleared, limit 0", |m| {
        m.finer(|finer, settings| {
            finer.offset == 0 && settings.qualification == 0 && finer.clears()
        })
    }),
    ("finer measurement 4065: alarm set, limit 127", |m| {
        m.finer(|finer, settings| finer.offset == 4_065 && settings.reject == 127 && finer.sets())
    }),
    ("old measurement: alarm set", |m| {
        m.old_changes(|before, after| !before.frequency_alarm && after.frequency_alarm)
    }),
    ("old measurement: alarm cleared", |m| {
        m.old_changes(|before, after| before.frequency_alarm && !after.frequency_alarm)
    }),
    ("kind 4 with b and word at fault", |m| {
        m.no_event(4, |fields| !good_b(fields) && !good_word(fields))
    }),
    ("kind 4 with b at fault and no such input, 12", |m| {
        m.no_event(4, |fields| {
            !good_b(fields) && good_word(fields) && !good_input(fields)
        })
    }),
    ("kind 4 with the word at fault and no such input, 12", |m| {
        m.no_event(4, |fields| {
            good_b(fields) && !good_word(fields) && !good_input(fields)
        })
    }),
];
