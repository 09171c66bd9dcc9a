//! Tables of fresh values, drawn at random: such as load, and such as do not.

use super::any_value;
use crate::table::{Table, FORBIDDEN, LARGEST};
use shared::random::Random;

/// Lengths of tables that do not load.
const OTHER_LENGTHS: [u16; 8] = [0, 1, 8, ALL - 1, ALL + 1, 2 * ALL, 256 + ALL, 300];
const ALL: u16 = Table::STANDARD.length;

/// A table that loads: now and then the standard one, most often of a unit that
/// can lock without a write.
pub fn table(random: &mut Random) -> Table {
    match random.below(6) {
        0 => Table::STANDARD,
        1 => any_table(random),
        _ => waking_table(random),
    }
}

/// A table that loads, of a unit that can lock without a write: it wakes in
/// automatic control, Free Run is no candidate; or in manual control of an
/// input.
pub fn waking_table(random: &mut Random) -> Table {
    let mut table = any_table(random);
    let (one, other) = (random.byte(), random.byte());
    for (address, value) in [
        (0x24, 0),
        (0x40, random.pick(&[1, 1, 1, 0])),
        (0x41, random.between(1, 8) as u8),
        (0x42, random.pick(&[0xff, 0xff, one | other])),
        (0x43, random.pick(&[0, 0, 1, 1, 2])),
    ] {
        table = table.with(address, value);
    }
    table
}

/// A table that loads, of any values.
fn any_table(random: &mut Random) -> Table {
    let (reject, qualification) = limits(random);
    let mut table = Table::STANDARD.with(0x44, reject).with(0x45, qualification);
    for address in (0x1c..=0x25).chain(0x40..=0x43) {
        if random.one_in(4) {
            continue;
        }
        let largest = largest(address);
        let value = any_value(random, address).min(largest);
        let value = random.pick(&[value, value, value, value, largest, 0]);
        table = table.with(address, value);
    }
    table
}

/// Limits that are 6 apart or more, often just that.
fn limits(random: &mut Random) -> (u8, u8) {
    let qualification = random.below(122) as u8;
    let qualification = random.pick(&[25, qualification, 0, 121]);
    let least = qualification + 6;
    let reject = random.between(u32::from(least), 127) as u8;
    (random.pick(&[least, reject, reject, 127]), qualification)
}

fn largest(address: u8) -> u8 {
    let found = LARGEST.iter().find(|largest| largest.0 == address);
    found.map_or(255, |largest| largest.1)
}

/// A table that does not load, for one reason or for two.
pub fn refused_table(random: &mut Random) -> Table {
    let table = table(random);
    let table = spoilt(random, table);
    match random.one_in(4) {
        true => spoilt(random, table),
        false => table,
    }
}

/// The table with one thing wrong, often by as little as can be.
fn spoilt(random: &mut Random, table: Table) -> Table {
    let byte = random.byte();
    match random.below(5) {
        0 => table.of_length(random.pick(&OTHER_LENGTHS)),
        1 | 2 => {
            let value = random.pick(&[1, 1, 0x80, 255, byte | 1]);
            table.with(random.pick(&FORBIDDEN), value)
        }
        3 => {
            let (address, largest) = random.pick(&LARGEST);
            let value = random.pick(&[largest + 1, largest + 1, byte | 0x80, 255]);
            table.with(address, value)
        }
        _ => {
            let qualification = random.pick(&[25, byte % 123, 0, 122]);
            let closer = random.below(u32::from(qualification) + 6) as u8;
            let reject = random.pick(&[qualification + 5, qualification, closer]);
            table.with(0x44, reject).with(0x45, qualification)
        }
    }
}
