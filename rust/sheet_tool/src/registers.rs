//! The registers by name, as the text writes them for an address.

use controller::{register_slot, REGISTERS};

/// In address order.
const NAMES: [&str; REGISTERS] = [
    "input-1",
    "input-2",
    "input-3",
    "input-4",
    "input-5",
    "input-6",
    "input-7",
    "input-8",
    "free-run",
    "history-policy",
    "history-command",
    "hours",
    "control",
    "op-mode",
    "mask",
    "delay",
    "reject",
    "qualification",
    "qualified",
    "available",
    "state",
    "status",
    "value-0",
    "value-1",
    "value-2",
    "value-3",
    "count",
];

/// Every register's address and name, in address order.
pub fn all() -> impl Iterator<Item = (u8, &'static str)> {
    (0..=255).filter_map(|address| Some((address, name(address)?)))
}

/// None if no register has this name.
pub fn address(name: &str) -> Option<u8> {
    let found = all().find(|register| register.1 == name);
    found.map(|register| register.0)
}

/// None if the address is not in the map.
pub fn name(address: u8) -> Option<&'static str> {
    register_slot(address).map(|slot| NAMES[slot])
}
