//! The faults of #106: measurements that are judged in other steps or under
//! other limits, and fields of kind 4 that are let through or turned down.

use crate::faults::*;
use differ::fields::Fields;
use model::{Event, Settings, Unit};

/// Takes a measurement of the old kind as a finer one of so many times its byte.
fn old_as<const TIMES: i16>(unit: &mut Unit, fields: Fields) -> u8 {
    let fields = match fields.event() {
        Some(Event::Measurement { input, offset }) => {
            let offset = TIMES * i16::from(offset);
            Event::FinerMeasurement { input, offset }.into()
        }
        _ => fields,
    };
    right_event(unit, fields)
}

/// The magnitude and the two limits that a finer measurement is judged by.
type Judged = (i32, i32, i32);

/// Judges a finer measurement by other numbers.
fn judge(unit: &mut Unit, fields: Fields, by: impl Fn(i32, i32, i32) -> Judged) -> u8 {
    then(unit, fields, |before, after| {
        if let Some(Event::FinerMeasurement { input, offset }) = fields.event() {
            let Settings {
                reject,
                qualification,
                ..
            } = after.settings;
            let (magnitude, reject, qualification) =
                by(offset.into(), reject.into(), qualification.into());
            let place = usize::from(input) - 1;
            let kept = before.inputs[place].frequency_alarm && magnitude > qualification;
            after.inputs[place].frequency_alarm = magnitude > reject || kept;
        }
    })
}

/// Judges a finer measurement by another magnitude.
fn judge_magnitude(unit: &mut Unit, fields: Fields, of: impl Fn(i32) -> i32) -> u8 {
    judge(unit, fields, |offset, reject, qualification| {
        (of(offset), 32 * reject, 32 * qualification)
    })
}

/// Judges a finer measurement by other limits.
fn judge_limits(unit: &mut Unit, fields: Fields, of: impl Fn(i32) -> i32) -> u8 {
    judge(unit, fields, |offset, reject, qualification| {
        (offset.abs(), of(reject), of(qualification))
    })
}

/// Judges a finer measurement in steps of 0.5 ppm.
fn judge_in_old_steps(unit: &mut Unit, fields: Fields, of: impl Fn(i32) -> i32) -> u8 {
    judge(unit, fields, |offset, reject, qualification| {
        (of(offset).abs(), reject, qualification)
    })
}

/// Takes fields of kind 4 otherwise than they are.
fn kind_4_as(unit: &mut Unit, mut fields: Fields, alter: impl Fn(&mut Fields)) -> u8 {
    if fields.kind == 4 {
        alter(&mut fields);
    }
    right_event(unit, fields)
}

/// Takes one word of kind 4 for another.
fn word_as<const WORD: i32, const OTHER: i32>(unit: &mut Unit, fields: Fields) -> u8 {
    kind_4_as(unit, fields, |fields| {
        if fields.word == WORD {
            fields.word = OTHER;
        }
    })
}

/// Turns fields of kind 4 down of which this holds.
fn turn_down(unit: &mut Unit, fields: Fields, holds: fn(Fields) -> bool) -> u8 {
    match fields.kind == 4 && holds(fields) {
        true => 12,
        false => right_event(unit, fields),
    }
}

fn no_input(fields: Fields) -> bool {
    !(1..=8).contains(&fields.a)
}

pub static FAULTS: &[Fault] = &[
    in_event("31 times for the old kind", old_as::<31>),
    in_event("33 times for the old kind", old_as::<33>),
    in_event("the old kind in finer steps", old_as::<1>),
    in_event("limits as they are for the finer kind", |unit, fields| {
        judge_limits(unit, fields, |limit| limit)
    }),
    in_event("limits as 31 times theirs", |unit, fields| {
        judge_limits(unit, fields, |limit| 31 * limit)
    }),
    in_event("limits as 33 times theirs", |unit, fields| {
        judge_limits(unit, fields, |limit| 33 * limit)
    }),
    in_event("limits as 64 times theirs", |unit, fields| {
        judge_limits(unit, fields, |limit| 64 * limit)
    }),
    in_event("32 times a limit in a byte", |unit, fields| {
        judge_limits(unit, fields, |limit| 32 * limit % 256)
    }),
    in_event("a finer offset at the reject limit sets", |unit, fields| {
        judge(unit, fields, |offset, reject, qualification| {
            (offset.abs(), 32 * reject - 1, 32 * qualification)
        })
    }),
    in_event(
        "a finer offset a step above the reject limit keeps",
        |unit, fields| {
            judge(unit, fields, |offset, reject, qualification| {
                (offset.abs(), 32 * reject + 1, 32 * qualification)
            })
        },
    ),
    in_event(
        "a finer offset at the qualification limit keeps",
        |unit, fields| {
            judge(unit, fields, |offset, reject, qualification| {
                (offset.abs(), 32 * reject, 32 * qualification - 1)
            })
        },
    ),
    in_event(
        "a finer offset a step above the qualification limit clears",
        |unit, fields| {
            judge(unit, fields, |offset, reject, qualification| {
                (offset.abs(), 32 * reject, 32 * qualification + 1)
            })
        },
    ),
    in_event(
        "a finer offset between the limits clears",
        |unit, fields| {
            judge(unit, fields, |offset, reject, _| {
                (offset.abs(), 32 * reject, 32 * reject)
            })
        },
    ),
    in_event("a finer offset rounded toward 0", |unit, fields| {
        judge_in_old_steps(unit, fields, |offset| offset / 32)
    }),
    in_event("a finer offset rounded down", |unit, fields| {
        judge_in_old_steps(unit, fields, |offset| offset.div_euclid(32))
    }),
    in_event("a finer offset rounded to the nearest", |unit, fields| {
        judge_in_old_steps(unit, fields, |offset| (offset + 16).div_euclid(32))
    }),
    in_event("a finer offset cut to a byte", |unit, fields| {
        judge_magnitude(unit, fields, |offset| i32::from(offset as i8).abs())
    }),
    in_event("a finer offset in 0.5 ppm", |unit, fields| {
        judge_magnitude(unit, fields, |offset| 32 * offset.abs())
    }),
    in_event("-32,768 taken as magnitude 0", |unit, fields| {
        judge_magnitude(unit, fields, |offset| match offset {
            -32_768 => 0,
            _ => offset.abs(),
        })
    }),
    in_event("a finer offset below 0 taken as 0", |unit, fields| {
        judge_magnitude(unit, fields, |offset| offset.max(0))
    }),
    in_event("a finer offset below 0 always sets", |unit, fields| {
        judge_magnitude(unit, fields, |offset| offset.rem_euclid(65_536))
    }),
    in_event("a finer measurement changes nothing", |unit, fields| {
        then(unit, fields, |before, after| {
            if fields.kind == 4 {
                after.inputs = before.inputs;
            }
        })
    }),
    in_event("a finer measurement of the next input", |unit, fields| {
        kind_4_as(unit, fields, |fields| {
            if !no_input(*fields) {
                fields.a = fields.a % 8 + 1;
            }
        })
    }),
    in_event("soak zeroed by a finer measurement", |unit, fields| {
        then(unit, fields, |_, after| {
            if fields.kind == 4 {
                after.inputs[usize::from(fields.a) - 1].soak = 0;
            }
        })
    }),
    in_event("b 1 of kind 4 let through", |unit, fields| {
        kind_4_as(unit, fields, |fields| {
            if fields.b == 1 {
                fields.b = 0;
            }
        })
    }),
    in_event("b of kind 4 not looked at", |unit, fields| {
        kind_4_as(unit, fields, |fields| fields.b = 0)
    }),
    in_event(
        "the word 32,768 taken as -32,768",
        word_as::<32_768, -32_768>,
    ),
    in_event("the word 32,768 taken as 32,767", word_as::<32_768, 32_767>),
    in_event(
        "the word -32,769 taken as 32,767",
        word_as::<-32_769, 32_767>,
    ),
    in_event(
        "the word -32,769 taken as -32,768",
        word_as::<-32_769, -32_768>,
    ),
    in_event("the word's upper half dropped", |unit, fields| {
        kind_4_as(unit, fields, |fields| {
            fields.word = i32::from(fields.word as i16);
        })
    }),
    in_event("words from 32,768 on taken as 32,767", |unit, fields| {
        kind_4_as(unit, fields, |fields| fields.word = fields.word.min(32_767))
    }),
    in_event("words below -32,768 taken as that", |unit, fields| {
        kind_4_as(unit, fields, |fields| {
            fields.word = fields.word.max(-32_768)
        })
    }),
    in_event("kind 4 turned down", |unit, fields| {
        turn_down(unit, fields, |_| true)
    }),
    in_event("the word 32,767 turned down", |unit, fields| {
        turn_down(unit, fields, |fields| fields.word == 32_767)
    }),
    in_event("the word -32,768 turned down", |unit, fields| {
        turn_down(unit, fields, |fields| fields.word == -32_768)
    }),
    in_event("words below 0 turned down", |unit, fields| {
        turn_down(unit, fields, |fields| fields.word < 0)
    }),
    in_event("12 for an input that kind 4 has not", |unit, fields| {
        turn_down(unit, fields, no_input)
    }),
    in_event("kind 5 let through", |unit, mut fields| {
        if fields.kind == 5 {
            fields.kind = 4;
        }
        right_event(unit, fields)
    }),
    in_event("kinds over 4 let through", |unit, mut fields| {
        fields.kind = fields.kind.min(4);
        right_event(unit, fields)
    }),
    in_event("6 before 12 for kind 4", |unit, fields| {
        match fields.kind == 4 && no_input(fields) {
            true => 6,
            false => right_event(unit, fields),
        }
    }),
    in_event(
        "input 9 of kind 4 let through",
        |unit, fields| match fields.event() {
            Some(Event::FinerMeasurement { input: 9, .. }) => 0,
            _ => right_event(unit, fields),
        },
    ),
    in_event("a refused kind 4 sets an alarm", |unit, fields| {
        let refusal = right_event(unit, fields);
        if fields.kind == 4 && refusal != 0 {
            unit.inputs[0].frequency_alarm = true;
        }
        refusal
    }),
];
