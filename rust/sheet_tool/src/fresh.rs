//! The unit that a run begins with: document 01's fresh unit, or one that is
//! made from the table of fresh values in front of a text. Whether a table
//! loads, and which of its values are at fault, the controller is asked.

use crate::make::Fault;
use crate::registers;
use controller::{reason, register_slot, Unit, REGISTERS};

/// The word of the statement.
pub const TABLE: &str = "table";

/// A value of a table, and the line of the text that it stands in.
#[derive(Clone, Copy, Debug, PartialEq, Eq)]
pub struct Entry {
    pub line: usize,
    pub value: u8,
}

/// The fresh unit; with a table, one that is made from it, if that loads.
pub fn fresh(table: Option<&[u8]>) -> Unit {
    let mut unit = Unit::fresh();
    if let Some(table) = table {
        unit.load(table);
    }
    unit
}

/// The values of a table that loads; or the line of the first that is at fault,
/// and what is wrong.
pub fn loading(entries: &[Entry]) -> Result<Vec<u8>, Fault> {
    let values: Vec<u8> = entries.iter().map(|entry| entry.value).collect();
    let refusal = Unit::fresh().load(&values);
    if refusal == 0 {
        return Ok(values);
    }
    let slots = slots_at_fault(&values);
    let first = slots.first().copied();
    let line = first.map_or(entries.last(), |slot| entries.get(slot));
    Err(Fault {
        line: line.map_or(1, |entry| entry.line),
        reason: format!(
            "table refused with {}: {} ({})",
            refusal,
            reason(refusal),
            told(&values, &slots)
        ),
    })
}

/// The values at fault by their registers, or, if there are none, the length.
fn told(values: &[u8], slots: &[usize]) -> String {
    let names: Vec<_> = registers::all().map(|(_, name)| name).collect();
    let value = |&slot: &usize| format!("{} {}", names[slot], values[slot]);
    match slots {
        [] => format!("length {}", values.len()),
        slots => slots.iter().map(value).collect::<Vec<_>>().join(", "),
    }
}

/// The slots whose values do not load, each alone in a table that else does;
/// and the two limits, if they do not load together. None if the length is
/// wrong.
fn slots_at_fault(values: &[u8]) -> Vec<usize> {
    let others = others();
    if values.len() != others.len() {
        return vec![];
    }
    let at_fault = |slots: &[usize]| {
        let mut table = others.clone();
        slots.iter().for_each(|&slot| table[slot] = values[slot]);
        Unit::fresh().load(&table) != 0
    };
    let mut slots: Vec<_> = (0..values.len())
        .filter(|&slot| at_fault(&[slot]))
        .collect();
    let limits = ["reject", "qualification"].map(slot);
    if at_fault(&limits) && !limits.iter().any(|limit| slots.contains(limit)) {
        slots.extend(limits);
        slots.sort_unstable();
    }
    slots
}

/// A table that loads, with limits that are as far apart as can be, so that
/// each can be tried alone.
fn others() -> Vec<u8> {
    let with_reject = |reject| {
        let mut table = vec![0; REGISTERS];
        table[slot("reject")] = reject;
        table
    };
    let mut tables = (0..=255).rev().map(with_reject);
    let found = tables.find(|table| Unit::fresh().load(table) == 0);
    found.expect("a table that loads")
}

/// The slot of a register in a table.
fn slot(name: &str) -> usize {
    let slot = registers::address(name).and_then(register_slot);
    slot.expect("a register's name")
}
