//! A table of fresh values, as #105 loads it, and tables of other lengths.

use model::{table_addresses, Settings, REGISTERS, STANDARD_TABLE};
use std::fmt;

/// The addresses that have 0 in each table that loads: the command, and the
/// registers that are read only.
pub const FORBIDDEN: [u8; 11] = [
    0x26, 0x27, 0x46, 0x47, 0x48, 0x49, 0x4a, 0x4b, 0x4c, 0x4d, 0x4e,
];

/// The other addresses whose values end below 255, each with the largest.
pub const LARGEST: [(u8, u8); 6] = [
    (0x24, 31),
    (0x25, 1),
    (0x40, 1),
    (0x41, 9),
    (0x44, 127),
    (0x45, 127),
];

/// Small enough to be handed on by value: a table of more bytes than there are
/// registers has these over and over.
#[derive(Clone, Copy, Debug, PartialEq, Eq)]
pub struct Table {
    pub length: u16,
    bytes: [u8; REGISTERS],
}

impl Table {
    /// The fresh values of document 01.
    pub const STANDARD: Table = Table {
        length: REGISTERS as u16,
        bytes: STANDARD_TABLE,
    };

    /// With another value at an address of the map.
    pub fn with(mut self, address: u8, value: u8) -> Table {
        self.bytes[slot(address)] = value;
        self
    }

    pub fn of_length(self, length: u16) -> Table {
        Table { length, ..self }
    }

    /// The value at an address of the map.
    pub fn value(&self, address: u8) -> u8 {
        self.bytes[slot(address)]
    }

    pub fn bytes(&self) -> Vec<u8> {
        let round = self.bytes.iter().copied().cycle();
        round.take(usize::from(self.length)).collect()
    }

    pub fn loads(&self) -> bool {
        Settings::of_table(&self.bytes()).is_ok()
    }

    /// The standard table and the standard length, and the table with a value
    /// of the standard one at each address.
    pub fn plainer(self) -> Vec<Table> {
        let standard = Table::STANDARD;
        let mut forms = vec![
            standard.of_length(self.length),
            self.of_length(standard.length),
        ];
        forms.extend(table_addresses().map(|address| self.with(address, standard.value(address))));
        forms
    }
}

/// The slot of an address of the map in a table.
pub fn slot(address: u8) -> usize {
    let slot = table_addresses().position(|other| other == address);
    slot.expect("an address of the map")
}

impl fmt::Display for Table {
    fn fmt(&self, f: &mut fmt::Formatter) -> fmt::Result {
        write!(f, "{} bytes", self.length)?;
        let standard = Table::STANDARD;
        let other = |address: &u8| self.value(*address) != standard.value(*address);
        for address in table_addresses().filter(other) {
            write!(f, " {:#04x} = {:#04x}", address, self.value(address))?;
        }
        Ok(())
    }
}
