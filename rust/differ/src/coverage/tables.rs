//! The items of #105: tables that load, at each bound and wherever the unit
//! stands; tables that do not, each for one reason alone; and units that live
//! without a write.

use super::{family, singles, Condition, Moment, SingleCondition};
use crate::table::{Table, FORBIDDEN, LARGEST};
use model::{Buckets, State, Unit};

impl Moment<'_> {
    /// A table, or an event of a unit that lives without a write.
    pub fn concerns_tables(&self) -> bool {
        self.table.is_some() || self.unwritten
    }

    fn loaded(&self, holds: impl Fn(&Table) -> bool) -> bool {
        self.refusal == 0 && self.table.map_or(false, |table| holds(&table))
    }

    fn not_loaded(&self, holds: impl Fn(&Table) -> bool) -> bool {
        self.refusal == 15 && self.table.map_or(false, |table| holds(&table))
    }

    /// A table that loads, on a unit of which this holds.
    fn loaded_on(&self, holds: impl Fn(&Unit) -> bool) -> bool {
        self.loaded(|_| holds(self.before))
    }

    /// A table that does not load, on a unit of which this holds.
    fn not_loaded_on(&self, holds: impl Fn(&Unit) -> bool) -> bool {
        self.not_loaded(|_| holds(self.before))
    }

    /// A tick of a unit that lives without a write.
    fn unwritten_tick(&self) -> bool {
        self.unwritten && self.accepted_tick()
    }
}

/// The table with a value at this address that is at fault only where the rest
/// is.
fn repaired(table: &Table, address: u8) -> Table {
    table.with(address, if address == 0x44 { 127 } else { 0 })
}

/// A byte for each register.
const ALL: u16 = Table::STANDARD.length;

/// The items, each with its condition.
pub fn conditions() -> Vec<(String, Condition)> {
    let mut list = family(
        0x1c..=0x23,
        |address| format!("table that loads with upper bits at {:#04x}", address),
        |m, address| m.loaded(|table| table.value(address) > 15),
    );
    list.extend(family(
        LARGEST.into_iter().filter(|&(address, _)| address != 0x45),
        |(address, _)| format!("table that loads with the largest at {:#04x}", address),
        |m, (address, largest)| m.loaded(|table| table.value(address) == largest),
    ));
    list.extend(family(
        [0x42, 0x43],
        |address| format!("table that loads with 255 at {:#04x}", address),
        |m, address| m.loaded(|table| table.value(address) == 255),
    ));
    list.extend(family(
        LARGEST,
        |(address, _)| format!("table with one above the largest at {:#04x}", address),
        |m, (address, largest)| {
            m.not_loaded(|table| {
                table.value(address) == largest + 1 && repaired(table, address).loads()
            })
        },
    ));
    list.extend(family(
        FORBIDDEN,
        |address| format!("table with a forbidden nonzero at {:#04x} alone", address),
        |m, address| m.not_loaded(|table| repaired(table, address).loads()),
    ));
    list.extend(family(
        [0, 1, ALL - 1, ALL + 1, 256 + ALL, 300],
        |length| format!("table of {} bytes, else one that loads", length),
        |m, length| m.not_loaded(|table| table.length == length && table.of_length(ALL).loads()),
    ));
    list.extend(family(
        State::ALL,
        |state| format!("table that loads in {}", state.name()),
        |m, state| m.loaded_on(|unit| unit.pll.state == state),
    ));
    list.extend(family(
        State::ALL,
        |state| format!("table that does not load in {}", state.name()),
        |m, state| m.not_loaded_on(|unit| unit.pll.state == state),
    ));
    list.extend(singles(CONDITIONS));
    list
}

/// Whether limits that are this far apart are all that is wrong.
fn limits_alone(table: &Table, apart: impl Fn(i16) -> bool) -> bool {
    let [reject, qualification] = [0x44, 0x45].map(|address| i16::from(table.value(address)));
    let otherwise = table.with(0x44, 127).with(0x45, 0);
    apart(reject - qualification) && reject <= 127 && qualification <= 127 && otherwise.loads()
}

/// The items that are not one of a family.
const CONDITIONS: &[(&str, SingleCondition)] = &[
    ("tables refused with 15", |m| m.not_loaded(|_| true)),
    ("standard table that loads", |m| {
        m.loaded(|table| *table == Table::STANDARD)
    }),
    ("standard table that loads, the unit not fresh", |m| {
        m.loaded(|table| *table == Table::STANDARD) && *m.before != Unit::fresh()
    }),
    ("table that loads on a fresh unit", |m| {
        m.loaded_on(|unit| *unit == Unit::fresh())
    }),
    ("table that loads with limits 6 apart", |m| {
        m.loaded(|table| table.value(0x44) == table.value(0x45) + 6)
    }),
    ("table that loads with limits 127 and 121", |m| {
        m.loaded(|table| (table.value(0x44), table.value(0x45)) == (127, 121))
    }),
    (
        "table that loads with limits that writes in address order would not take",
        |m| {
            let fresh = &Unit::fresh().settings;
            m.loaded(|table| table.value(0x44) < fresh.qualification + 6)
        },
    ),
    ("table that loads with automatic control", |m| {
        m.loaded(|table| table.value(0x40) == 1)
    }),
    ("table that loads with Free Run as a candidate", |m| {
        m.loaded(|table| table.value(0x40) == 1 && table.value(0x24) >= 16)
    }),
    ("table that loads with manual control, Op_Mode 9", |m| {
        m.loaded(|table| table.value(0x40) == 0 && table.value(0x41) == 9)
    }),
    ("table that loads, Ready", |m| m.loaded_on(Unit::ready)),
    ("table that loads, a backup held", |m| {
        m.loaded_on(Unit::backup_held)
    }),
    ("table that loads, blocks building", |m| {
        m.loaded_on(|unit| unit.history.built() > 0)
    }),
    ("table that loads, samples in the open block", |m| {
        m.loaded_on(|unit| unit.history.open.samples > 0)
    }),
    ("table that loads, a command read in 0x26", |m| {
        m.loaded_on(|unit| unit.settings.command != 0)
    }),
    ("table that loads, a reversion wait running", |m| {
        m.loaded_on(|unit| unit.wait.ticks > 0)
    }),
    ("table that loads, ticks counted in Holdover", |m| {
        m.loaded_on(|unit| unit.holdover_ticks > 0)
    }),
    ("table that loads, other bucket sets", |m| {
        m.loaded_on(|unit| unit.buckets.sets != Buckets::fresh().sets)
    }),
    ("table that loads, other sets assigned", |m| {
        m.loaded_on(|unit| unit.buckets.assigned != [0; 8])
    }),
    ("table that loads, an activity alarm set", |m| {
        m.loaded_on(|unit| unit.inputs.iter().any(|input| input.activity_alarm))
    }),
    ("table that loads, a lock alarm standing", |m| {
        m.loaded_on(|unit| unit.inputs.iter().any(|input| input.remainder > 0))
    }),
    ("table that loads, references qualified", |m| {
        m.loaded_on(|unit| unit.qualified_mask() != 0)
    }),
    ("table that does not load, Ready", |m| {
        m.not_loaded_on(Unit::ready)
    }),
    ("table that does not load, on a fresh unit", |m| {
        m.not_loaded_on(|unit| *unit == Unit::fresh())
    }),
    ("table with limits 5 apart alone", |m| {
        m.not_loaded(|table| limits_alone(table, |apart| apart == 5))
    }),
    ("table with the reject limit below the other alone", |m| {
        m.not_loaded(|table| limits_alone(table, |apart| apart < 0))
    }),
    ("table that two things are wrong with", |m| {
        m.not_loaded(|table| {
            let forbidden = FORBIDDEN.iter().any(|&address| table.value(address) > 0);
            forbidden && table.length > Table::STANDARD.length
        })
    }),
    ("Free Run candidate chosen without a write", |m| {
        m.unwritten_tick() && m.selection_changed() && m.after.selected == 9
    }),
    ("Locked without a write", |m| {
        m.unwritten_tick() && !m.before.locked() && m.after.locked()
    }),
    ("manual selection without a write", |m| {
        m.unwritten && m.manual_tick() && m.selection_changed() && m.after.reference_selected()
    }),
    ("reference lost without a write", |m| {
        m.unwritten_tick() && m.before.reference_selected() && m.selection_changed()
    }),
    ("reversion done after a wait without a write", |m| {
        m.unwritten_tick() && m.before.wait.ticks > 1 && m.left_a_candidate()
    }),
    ("reference held off by the table's mask", |m| {
        m.unwritten_tick() && m.after.qualified_mask() & !m.after.settings.mask != 0
    }),
];
