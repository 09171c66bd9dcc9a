//! Fresh values of the buyer's own: which tables load, and the settings that a
//! table gives. Sentences in quotation marks are document 02's, #105.

use crate::refusal::Refusal;
use crate::registers::{Register, Settings, REGISTERS};

/// The column "Fresh" of document 01 as a table.
pub const STANDARD_TABLE: [u8; REGISTERS] = [
    0, 0, 0, 0, 0, 0, 0, 0, // 0x1c to 0x23
    0, 0, 0, 0, // 0x24 to 0x27
    0, 0, 255, 0, 31, 25, // 0x40 to 0x45
    0, 0, 0, 0, 0, 0, 0, 0, 0, // 0x46 to 0x4e
];

/// The addresses of a table's bytes: "each register in address order".
pub fn table_addresses() -> impl Iterator<Item = u8> {
    (0..=255).filter(|&address| Register::at(address).is_some())
}

/// The largest byte that a table may have for a register. "read-only registers
/// and the command must have 0"
fn largest_in_table(register: Register) -> u8 {
    match register {
        Register::Command => 0,
        _ => register.largest().unwrap_or(0),
    }
}

impl Settings {
    /// The settings of a fresh unit that is made from these bytes. "15: wrong
    /// length, a forbidden nonzero, a value above Largest or reject −
    /// qualification under 6; the only check of loading."
    ///
    /// Reading: values above 15 for 0x1c to 0x23 load, with bits 7-4 dropped,
    /// since Largest is 255 there.
    pub fn of_table(table: &[u8]) -> Result<Settings, Refusal> {
        if table.len() != REGISTERS {
            return Err(Refusal::DoesNotLoad);
        }
        let mut settings = Settings::fresh();
        let registers = table_addresses().filter_map(Register::at);
        for (register, &value) in registers.zip(table) {
            if value > largest_in_table(register) {
                return Err(Refusal::DoesNotLoad);
            }
            settings = settings.with(register, value);
        }
        if settings.limits_too_close() {
            return Err(Refusal::DoesNotLoad);
        }
        Ok(settings)
    }
}
