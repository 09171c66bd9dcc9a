//! The faults: each alters the answer to an event, a call, a table or a read,
//! or the state that is left. Those of the history are in `histories`, those of
//! the bucket sets in `buckets`, those of the tables in `tables`, those of the
//! measurements in `readings`, those of the windows in `busy_hours` and
//! `week_calls`.

use differ::fields::Fields;
use model::{wait_limit, Call, Event, State, Unit, Wait};

pub struct Fault {
    pub name: &'static str,
    pub event: fn(&mut Unit, Fields) -> u8,
    pub call: fn(&mut Unit, Call) -> u8,
    pub load: fn(&mut Unit, &[u8]) -> u8,
    pub read: fn(&Unit, u8) -> (u8, u8),
    pub needs_long_list: bool,
}

pub const NO_FAULT: Fault = Fault {
    name: "none",
    event: right_event,
    call: right_call,
    load: right_load,
    read: right_read,
    needs_long_list: false,
};

pub fn right_event(unit: &mut Unit, fields: Fields) -> u8 {
    unit.event_fields(fields.kind, fields.a, fields.b, fields.word)
}

pub fn right_call(unit: &mut Unit, call: Call) -> u8 {
    unit.call(&call)
}

pub fn right_load(unit: &mut Unit, table: &[u8]) -> u8 {
    unit.load(table)
}

fn right_read(unit: &Unit, address: u8) -> (u8, u8) {
    unit.read(address)
}

pub const fn in_event(name: &'static str, event: fn(&mut Unit, Fields) -> u8) -> Fault {
    Fault {
        name,
        event,
        ..NO_FAULT
    }
}

pub const fn in_call(name: &'static str, call: fn(&mut Unit, Call) -> u8) -> Fault {
    Fault {
        name,
        call,
        ..NO_FAULT
    }
}

pub const fn in_load(name: &'static str, load: fn(&mut Unit, &[u8]) -> u8) -> Fault {
    Fault {
        name,
        load,
        ..NO_FAULT
    }
}

pub const fn in_read(name: &'static str, read: fn(&Unit, u8) -> (u8, u8)) -> Fault {
    Fault {
        name,
        read,
        ..NO_FAULT
    }
}

/// Reads rightly but for one address.
fn read_but(unit: &Unit, address: u8, wrong: u8, answer: impl Fn(u8) -> u8) -> (u8, u8) {
    let (refusal, byte) = unit.read(address);
    if address == wrong {
        (refusal, answer(byte))
    } else {
        (refusal, byte)
    }
}

/// Takes the event rightly, then alters the state after an accepted one.
pub fn then(unit: &mut Unit, fields: Fields, alter: impl Fn(&Unit, &mut Unit)) -> u8 {
    alter_after(unit, |unit| right_event(unit, fields), alter)
}

/// As `then`, for a call.
pub fn then_after_call(unit: &mut Unit, call: Call, alter: impl Fn(&Unit, &mut Unit)) -> u8 {
    alter_after(unit, |unit| right_call(unit, call), alter)
}

/// As `then`, for a table.
pub fn then_after_load(unit: &mut Unit, table: &[u8], alter: impl Fn(&Unit, &mut Unit)) -> u8 {
    alter_after(unit, |unit| right_load(unit, table), alter)
}

fn alter_after(
    unit: &mut Unit,
    take: impl Fn(&mut Unit) -> u8,
    alter: impl Fn(&Unit, &mut Unit),
) -> u8 {
    let before = unit.clone();
    let refusal = take(unit);
    if refusal == 0 {
        alter(&before, unit);
    }
    refusal
}

/// As `then`, for ticks alone.
pub fn then_after_tick(unit: &mut Unit, fields: Fields, alter: impl Fn(&Unit, &mut Unit)) -> u8 {
    then(unit, fields, |before, after| {
        if is_tick(fields) {
            alter(before, after)
        }
    })
}

/// Takes a tick with other settings, which are put back after it.
pub fn tick_with(unit: &mut Unit, fields: Fields, alter: impl Fn(&mut Unit)) -> u8 {
    let settings = unit.settings;
    if is_tick(fields) {
        alter(unit);
    }
    let refusal = right_event(unit, fields);
    if is_tick(fields) {
        unit.settings = settings;
    }
    refusal
}

pub fn is_tick(fields: Fields) -> bool {
    matches!(fields.event(), Some(Event::Tick { .. }))
}

pub fn is_command(fields: Fields, value: u8) -> bool {
    let address = 0x26;
    fields.event() == Some(Event::Write { address, value })
}

/// Makes the selected reference revertive, or not.
fn set_revertive(unit: &mut Unit, revertive: bool) {
    if unit.reference_selected() {
        let byte = &mut unit.settings.inputs[usize::from(unit.selected) - 1];
        *byte = *byte & 0x07 | u8::from(revertive) << 3;
    }
}

/// Reads rightly but for the four bytes of the value, if another is given.
pub fn read_value(unit: &Unit, address: u8, other: Option<i64>) -> (u8, u8) {
    match (address, other) {
        (0x4a..=0x4d, Some(value)) => (0, value.to_le_bytes()[usize::from(address - 0x4a)]),
        _ => unit.read(address),
    }
}

/// The byte of the value, rounded toward zero.
fn value_toward_zero(unit: &Unit, address: u8) -> (u8, u8) {
    let kept = &unit.history.kept;
    let sum: i64 = kept.iter().sum();
    let value = unit.ready().then(|| sum / (128 * kept.len() as i64));
    read_value(unit, address, value)
}

/// The byte of the value, Ready or not.
fn value_always(unit: &Unit, address: u8) -> (u8, u8) {
    read_value(unit, address, unit.history.value())
}

pub static FAULTS: &[Fault] = &[
    in_read("0x4e counts the qualified", |unit, address| {
        let qualified = unit.qualified_mask().count_ones() as u8;
        read_but(unit, address, 0x4e, |_| qualified)
    }),
    in_read("0x47 is the qualified mask", |unit, address| {
        let qualified = unit.qualified_mask();
        read_but(unit, address, 0x47, |_| qualified)
    }),
    in_read("hours of 28,124 ticks", |unit, address| {
        let hours = (unit.holdover_ticks / 28_124).min(255) as u8;
        read_but(unit, address, 0x27, |_| hours)
    }),
    in_read("no hours", |unit, address| {
        read_but(unit, address, 0x27, |_| 0)
    }),
    in_read("Ready from the start", |unit, address| {
        read_but(unit, address, 0x49, |byte| byte | 0x04)
    }),
    in_read("never Ready", |unit, address| {
        read_but(unit, address, 0x49, |byte| byte & !0x04)
    }),
    in_read("selected fixed on 1", |unit, address| {
        read_but(unit, address, 0x48, |byte| byte & 0xf0 | 0x01)
    }),
    in_read("value rounded toward zero", value_toward_zero),
    in_read("value without Ready", value_always),
    in_read("a byte from outside the map", |unit, address| {
        read_but(unit, address, 0x28, |_| 0xff)
    }),
    in_event("each event refused", |_, _| 5),
    in_event("each tick refused", |unit, fields| {
        if is_tick(fields) {
            7
        } else {
            right_event(unit, fields)
        }
    }),
    in_event("never reselects", |unit, fields| {
        then_after_tick(unit, fields, |before, after| {
            if before.selected != 0 {
                after.selected = before.selected;
            }
        })
    }),
    in_event("settled at the first tick", |unit, fields| {
        let ticked = unit.inputs[0].level + unit.inputs[0].decay > 0;
        if ticked && is_tick(fields) {
            0
        } else {
            right_event(unit, fields)
        }
    }),
    in_event("inputs taken unjudged", |unit, fields| {
        if is_tick(fields) {
            for input in &mut unit.inputs {
                input.frequency_alarm = false;
                input.soak = 79;
            }
        }
        right_event(unit, fields)
    }),
    in_event("-128 negated in a byte", |unit, mut fields| {
        if matches!(
            fields.event(),
            Some(Event::Measurement { offset: -128, .. })
        ) {
            fields.b = 0;
        }
        right_event(unit, fields)
    }),
    in_event("bit 3 of the candidate counts", |unit, fields| {
        tick_with(unit, fields, |unit| {
            let best = unit.best();
            let revertive = best != 0 && unit.settings.revertive(best);
            set_revertive(unit, revertive);
        })
    }),
    in_event("no reversion to an equal priority", |unit, fields| {
        tick_with(unit, fields, |unit| {
            let priority = |candidate| unit.settings.priority(candidate);
            if unit.best() != 0 && priority(unit.best()) == priority(unit.selected) {
                set_revertive(unit, false);
            }
        })
    }),
    in_event("wait carried over to another best", |unit, fields| {
        then(unit, fields, |before, after| {
            let both_wait = before.wait.ticks > 0 && after.wait.ticks > 0;
            if both_wait && after.wait.best != before.wait.best {
                after.wait.ticks = before.wait.ticks + 1;
            }
        })
    }),
    in_event("wait of one tick less", |unit, fields| {
        if is_tick(fields) && unit.wait.ticks == wait_limit(unit.settings.delay).max(2) - 1 {
            unit.wait.ticks += 1;
        }
        right_event(unit, fields)
    }),
    in_event("wait not zeroed by a manual tick", |unit, fields| {
        then_after_tick(unit, fields, |before, after| {
            if !after.settings.automatic() && after.selected == before.selected {
                after.wait = before.wait;
            }
        })
    }),
    in_event("wait zeroed by any write", |unit, fields| {
        then(unit, fields, |_, after| {
            if !is_tick(fields) {
                after.wait = Wait::ZERO;
            }
        })
    }),
    in_event("soak of 78 ticks", |unit, fields| {
        then(unit, fields, |_, after| {
            for input in after.inputs.iter_mut().filter(|input| input.soak == 78) {
                input.soak = 79;
            }
        })
    }),
    in_event("lock alarm of 781 ticks", |unit, fields| {
        then(unit, fields, |_, after| {
            for input in after
                .inputs
                .iter_mut()
                .filter(|input| input.remainder == 782)
            {
                input.remainder = 781;
            }
        })
    }),
    in_event("lock run kept over a change", |unit, fields| {
        then_after_tick(unit, fields, |before, after| {
            if after.selected != before.selected {
                after.pll.lock_run = before.pll.lock_run;
            }
        })
    }),
    in_event("unlock run kept over a change", |unit, fields| {
        then_after_tick(unit, fields, |before, after| {
            if after.selected != before.selected && before.pll.unlock_run < 781 {
                after.pll.unlock_run = before.pll.unlock_run;
            }
        })
    }),
    in_event("activity alarm cleared at level 5", |unit, fields| {
        then(unit, fields, |_, after| {
            for input in after.inputs.iter_mut().filter(|input| input.level == 5) {
                input.activity_alarm = false;
            }
        })
    }),
    in_event("decay count kept by an irregular tick", |unit, fields| {
        then_after_tick(unit, fields, |before, after| {
            for (input, before) in after.inputs.iter_mut().zip(&before.inputs) {
                if input.level > before.level {
                    input.decay = before.decay;
                }
            }
        })
    }),
    in_event("a Hit keeps the soak", |unit, fields| {
        then(unit, fields, |before, after| {
            if fields.event() == Some(Event::Hit) {
                after.inputs = before.inputs;
            }
        })
    }),
    in_event("a Hit asks Op_Mode", |unit, fields| {
        then(unit, fields, |_, after| {
            let settings = &after.settings;
            let free_run = !settings.automatic() && settings.op_mode == 0;
            if fields.event() == Some(Event::Hit) && free_run {
                after.pll.state = State::FreeRun;
            }
        })
    }),
    in_event("manual control obeys the mask", |unit, fields| {
        tick_with(unit, fields, |unit| {
            let op_mode = unit.settings.op_mode;
            if (1..=8).contains(&op_mode) && !unit.settings.unmasked(op_mode) {
                let manual = !unit.settings.automatic();
                unit.settings.op_mode = if manual { 9 } else { op_mode };
            }
        })
    }),
    in_event("Holdover with Op_Mode 0 in manual", |unit, fields| {
        tick_with(unit, fields, |unit| {
            if unit.settings.op_mode == 0 {
                unit.settings.op_mode = 9;
            }
        })
    }),
    in_event("Free Run without its bit 4", |unit, fields| {
        tick_with(unit, fields, |unit| {
            if unit.settings.free_run != 0 {
                unit.settings.free_run |= 0x10;
            }
        })
    }),
    in_event("Free Run ahead of an equal priority", |unit, fields| {
        tick_with(unit, fields, |unit| {
            if unit.settings.free_run & 0x07 > 0 {
                unit.settings.free_run -= 1;
            }
        })
    }),
    in_event("Pre-locked after Holdover", |unit, fields| {
        then(unit, fields, |_, after| {
            if after.pll.state == State::PreLocked2 {
                after.pll.state = State::PreLocked;
            }
        })
    }),
    in_event(
        "the entering event counted for the hours",
        |unit, fields| {
            then(unit, fields, |before, after| {
                if after.pll.state == State::Holdover && before.pll.state != State::Holdover {
                    after.holdover_ticks = 1;
                }
            })
        },
    ),
    in_event("upper bits of an input kept", |unit, fields| {
        then(unit, fields, |_, after| match fields.event() {
            Some(Event::Write { address, value }) if (0x1c..=0x23).contains(&address) => {
                after.settings.inputs[usize::from(address - 0x1c)] = value;
            }
            _ => {}
        })
    }),
    in_event("a refused event changes the state", |unit, fields| {
        let refusal = right_event(unit, fields);
        if refusal == 12 {
            unit.holdover_ticks += 1;
        }
        refusal
    }),
    Fault {
        needs_long_list: true,
        ..in_read("hours go on beyond 255", |unit, address| {
            let hours = (unit.holdover_ticks / 28_125) as u8;
            read_but(unit, address, 0x27, |_| hours)
        })
    },
];
