//! The faults of #105: tables that load and should not, or do not and should,
//! and units that are not what their table says, or not fresh.
//!
//! Some mistakes are not here, since no answer tells them. An open block or an
//! activity alarm that is kept is gone with the first tick, a wait with the
//! next selection; a decay count plays no part at level 0, and of the last
//! reference nothing is seen before the first Ready. The stored fields tell
//! them, in the test of the controller's fields.

use crate::faults::*;
use differ::table::slot;
use model::{BucketSet, Input, State, Unit, REGISTERS, SOAK_TICKS};

/// Takes another table in place of this, if it has a byte for each register.
fn load_other(unit: &mut Unit, table: &[u8], alter: impl Fn(&mut [u8])) -> u8 {
    let mut other = table.to_vec();
    if other.len() == REGISTERS {
        alter(&mut other);
    }
    unit.load(&other)
}

/// Takes a table of one length as one of the right length, with 0 for the bytes
/// that are missing.
fn of_length<const LENGTH: usize>(unit: &mut Unit, table: &[u8]) -> u8 {
    let mut other = table.to_vec();
    if other.len() == LENGTH {
        other.resize(REGISTERS, 0);
    }
    unit.load(&other)
}

/// Lets any value stand at an address that must have 0.
fn let_stand<const ADDRESS: u8>(unit: &mut Unit, table: &[u8]) -> u8 {
    load_other(unit, table, |table| table[slot(ADDRESS)] = 0)
}

/// Lets a value stand that is one above the largest, as the largest.
fn one_more<const ADDRESS: u8, const LARGEST: u8>(unit: &mut Unit, table: &[u8]) -> u8 {
    load_other(unit, table, |table| {
        let value = &mut table[slot(ADDRESS)];
        if *value == LARGEST + 1 {
            *value = LARGEST;
        }
    })
}

/// Loads limits that are this far apart and should not be.
fn load_limits(unit: &mut Unit, table: &[u8], apart: impl Fn(i16) -> bool) -> u8 {
    let mut other = table.to_vec();
    let limits = (slot(0x44), slot(0x45));
    if other.len() != REGISTERS || other[limits.0] > 127 || other[limits.1] > 127 {
        return unit.load(table);
    }
    let (reject, qualification) = (other[limits.0], other[limits.1]);
    other[limits.0] = 127;
    other[limits.1] = 0;
    if !apart(i16::from(reject) - i16::from(qualification)) {
        return unit.load(table);
    }
    then_after_load(unit, &other, |_, after| {
        after.settings.reject = reject;
        after.settings.qualification = qualification;
    })
}

/// Refuses a table of which this holds.
fn refuse_if(unit: &mut Unit, table: &[u8], wrong: fn(&[u8]) -> bool) -> u8 {
    match table.len() == REGISTERS && wrong(table) {
        true => 15,
        false => unit.load(table),
    }
}

/// Loads each value by a write, in the order of the addresses.
fn by_writes(unit: &mut Unit, table: &[u8]) -> u8 {
    let mut made = Unit::fresh();
    if made.load(table) != 0 {
        return 15;
    }
    let mut written = Unit::fresh();
    for address in (0x1c..=0x25).chain(0x40..=0x45) {
        let value = table[slot(address)];
        if written.event(&model::Event::Write { address, value }) != 0 {
            return 15;
        }
    }
    *unit = written;
    0
}

/// Answers a table that does not load with another number, if this holds.
fn answer_with(unit: &mut Unit, table: &[u8], number: u8, holds: fn(&[u8]) -> bool) -> u8 {
    match unit.load(table) {
        15 if holds(table) => number,
        refusal => refusal,
    }
}

fn has_all_bytes(table: &[u8]) -> bool {
    table.len() == REGISTERS
}

/// Spoils the state where a table does not load.
fn then_if_refused(unit: &mut Unit, table: &[u8], spoil: fn(&mut Unit)) -> u8 {
    let refusal = unit.load(table);
    if refusal != 0 {
        spoil(unit);
    }
    refusal
}

/// Alters each input of a loaded unit, beside what it was.
fn then_each(unit: &mut Unit, table: &[u8], alter: fn(&Input, &mut Input)) -> u8 {
    then_after_load(unit, table, |before, after| {
        for (before, after) in before.inputs.iter().zip(&mut after.inputs) {
            alter(before, after);
        }
    })
}

pub static FAULTS: &[Fault] = &[
    in_load("no bytes load", |unit, table| match table {
        [] => {
            *unit = Unit::fresh();
            0
        }
        _ => unit.load(table),
    }),
    in_load("a byte too few loads", of_length::<{ REGISTERS - 1 }>),
    in_load("a byte too many loads", of_length::<{ REGISTERS + 1 }>),
    in_load("more bytes load", |unit, table| {
        unit.load(&table[..table.len().min(REGISTERS)])
    }),
    in_load("the length taken as a byte", |unit, table| {
        let length = table.len() % 256;
        unit.load(&table[..length])
    }),
    in_load("any value at 0x27", let_stand::<0x27>),
    in_load("any value at 0x46", let_stand::<0x46>),
    in_load("any value at 0x47", let_stand::<0x47>),
    in_load("any value at 0x48", let_stand::<0x48>),
    in_load("any value at 0x49", let_stand::<0x49>),
    in_load("any value at 0x4a", let_stand::<0x4a>),
    in_load("any value at 0x4b", let_stand::<0x4b>),
    in_load("any value at 0x4c", let_stand::<0x4c>),
    in_load("any value at 0x4d", let_stand::<0x4d>),
    in_load("any value at 0x4e", let_stand::<0x4e>),
    in_load("any command let stand", let_stand::<0x26>),
    in_load("the command loaded", |unit, table| {
        let mut other = table.to_vec();
        let command = match other.get_mut(slot(0x26)) {
            Some(command) if *command <= 3 => std::mem::take(command),
            _ => 0,
        };
        then_after_load(unit, &other, |_, after| after.settings.command = command)
    }),
    in_load("32 let stand at 0x24", one_more::<0x24, 31>),
    in_load("2 let stand at 0x25", one_more::<0x25, 1>),
    in_load("2 let stand at 0x40", one_more::<0x40, 1>),
    in_load("10 let stand at 0x41", one_more::<0x41, 9>),
    in_load("128 let stand at 0x44", one_more::<0x44, 127>),
    in_load("any control but 0 is automatic", |unit, table| {
        load_other(unit, table, |table| {
            table[slot(0x40)] = table[slot(0x40)].min(1)
        })
    }),
    in_load("limits 5 apart load", |unit, table| {
        load_limits(unit, table, |apart| apart == 5)
    }),
    in_load("limits never checked", |unit, table| {
        load_limits(unit, table, |apart| apart < 6)
    }),
    in_load(
        "a negative distance of limits taken as large",
        |unit, table| load_limits(unit, table, |apart| apart < 0),
    ),
    in_load("limits 6 apart refused", |unit, table| {
        refuse_if(unit, table, |table| {
            table[slot(0x44)].wrapping_sub(table[slot(0x45)]) == 6
        })
    }),
    in_load("loaded by writes, one by one", by_writes),
    in_load("limits checked beside those before", |unit, table| {
        let qualification = unit.settings.qualification;
        match table.get(slot(0x44)) {
            Some(&reject) if reject < qualification + 6 => 15,
            _ => unit.load(table),
        }
    }),
    in_load("bits 7-4 of an input kept", |unit, table| {
        then_after_load(unit, table, |_, after| {
            after.settings.inputs.copy_from_slice(&table[..8]);
        })
    }),
    in_load("bits 7-4 dropped at 0x24 too", |unit, table| {
        load_other(unit, table, |table| table[slot(0x24)] &= 0x0f)
    }),
    in_load("an input above 15 refused", |unit, table| {
        refuse_if(unit, table, |table| {
            table[..8].iter().any(|&byte| byte > 15)
        })
    }),
    in_load("a mask of 0 refused", |unit, table| {
        refuse_if(unit, table, |table| table[slot(0x42)] == 0)
    }),
    in_load("Op_Mode 9 refused", |unit, table| {
        refuse_if(unit, table, |table| table[slot(0x41)] == 9)
    }),
    in_load("a second table refused", |unit, table| {
        match *unit == Unit::fresh() {
            true => unit.load(table),
            false => 15,
        }
    }),
    in_load("the first eight shifted", |unit, table| {
        load_other(unit, table, |table| table[..8].rotate_left(1))
    }),
    in_load("the bytes from 0x40 on one later", |unit, table| {
        load_other(unit, table, |table| table[slot(0x40)..].rotate_right(1))
    }),
    in_load("0x1c and 0x40 the other way round", |unit, table| {
        load_other(unit, table, |table| table.rotate_left(slot(0x40)))
    }),
    in_load("reject and qualification swapped", |unit, table| {
        load_other(unit, table, |table| table.swap(slot(0x44), slot(0x45)))
    }),
    in_load("always the standard values", |unit, table| {
        then_after_load(unit, table, |_, after| *after = Unit::fresh())
    }),
    in_load("always the standard mask", |unit, table| {
        then_after_load(unit, table, |_, after| after.settings.mask = 255)
    }),
    in_load("always the standard delay", |unit, table| {
        then_after_load(unit, table, |_, after| after.settings.delay = 0)
    }),
    in_load("always the standard policy", |unit, table| {
        then_after_load(unit, table, |_, after| after.settings.policy = 0)
    }),
    in_load("3 for a value above the largest", |unit, table| {
        answer_with(unit, table, 3, |table| {
            has_all_bytes(table) && table[slot(0x40)] > 1
        })
    }),
    in_load("4 for limits too close", |unit, table| {
        answer_with(unit, table, 4, |table| {
            has_all_bytes(table) && table[slot(0x44)] < table[slot(0x45)].saturating_add(6)
        })
    }),
    in_load("2 for a read-only register", |unit, table| {
        answer_with(unit, table, 2, |table| {
            has_all_bytes(table) && table[slot(0x46)..].iter().any(|&byte| byte > 0)
        })
    }),
    in_load("10 for a table that ends early", |unit, table| {
        answer_with(unit, table, 10, |table| table.len() < REGISTERS)
    }),
    in_load("a refused table clears the unit", |unit, table| {
        then_if_refused(unit, table, |unit| *unit = Unit::fresh())
    }),
    in_load("a refused table drops the reference", |unit, table| {
        then_if_refused(unit, table, |unit| unit.selected = 0)
    }),
    in_load("values up to the wrong one loaded", |unit, table| {
        let refusal = unit.load(table);
        if let (15, Some(byte)) = (refusal, table.first()) {
            unit.settings.inputs[0] = byte & 0x0f;
        }
        refusal
    }),
    in_load("the bucket sets kept", |unit, table| {
        then_after_load(unit, table, |before, after| {
            after.buckets.sets = before.buckets.sets
        })
    }),
    in_load("the assigned sets kept", |unit, table| {
        then_after_load(unit, table, |before, after| {
            after.buckets.assigned = before.buckets.assigned;
        })
    }),
    in_load("the inputs put at their set's size", |unit, table| {
        then_after_load(unit, table, |_, after| {
            for input in &mut after.inputs {
                input.start_bucket(&BucketSet::FRESH);
            }
        })
    }),
    in_load("the blocks kept", |unit, table| {
        then_after_load(unit, table, |before, after| {
            after.history.kept = before.history.kept.clone();
        })
    }),
    in_load("the building history kept", |unit, table| {
        then_after_load(unit, table, |before, after| {
            after.history.building = before.history.building.clone();
        })
    }),
    in_load("the backup kept", |unit, table| {
        then_after_load(unit, table, |before, after| {
            after.history.backup = before.history.backup.clone();
        })
    }),
    in_load("the last command kept", |unit, table| {
        then_after_load(unit, table, |before, after| {
            after.settings.command = before.settings.command;
        })
    }),
    in_load("the selected reference kept", |unit, table| {
        then_after_load(unit, table, |before, after| {
            after.selected = before.selected
        })
    }),
    in_load("the state kept", |unit, table| {
        then_after_load(unit, table, |before, after| {
            after.pll.state = before.pll.state
        })
    }),
    in_load("the hours kept", |unit, table| {
        then_after_load(unit, table, |before, after| {
            after.holdover_ticks = before.holdover_ticks;
            after.pll.state = before.pll.state;
        })
    }),
    in_load("the frequency alarms kept", |unit, table| {
        then_each(unit, table, |before, after| {
            after.frequency_alarm = before.frequency_alarm;
        })
    }),
    in_load("the frequency alarms clear", |unit, table| {
        then_each(unit, table, |_, after| after.frequency_alarm = false)
    }),
    in_load("the buckets' levels kept", |unit, table| {
        then_each(unit, table, |before, after| after.level = before.level)
    }),
    in_load("the lock alarms kept", |unit, table| {
        then_each(unit, table, |before, after| {
            after.remainder = before.remainder
        })
    }),
    in_load("the soaks kept", |unit, table| {
        then_each(unit, table, |before, after| after.soak = before.soak)
    }),
    in_load("all inputs qualified at once", |unit, table| {
        then_each(unit, table, |_, after| after.soak = SOAK_TICKS)
    }),
    in_load("Free Run selected at once", |unit, table| {
        then_after_load(unit, table, |_, after| {
            if after.settings.automatic() && after.settings.free_run_enabled() {
                after.selected = 9;
            }
        })
    }),
    in_load("the input of Op_Mode selected at once", |unit, table| {
        then_after_load(unit, table, |_, after| {
            if !after.settings.automatic() && after.settings.op_mode <= 8 {
                after.selected = after.settings.op_mode;
            }
        })
    }),
    in_load("Op_Mode 9 wakes in Holdover", |unit, table| {
        then_after_load(unit, table, |_, after| {
            if !after.settings.automatic() && after.settings.op_mode == 9 {
                after.pll.state = State::Holdover;
            }
        })
    }),
];
