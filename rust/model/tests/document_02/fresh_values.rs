//! #105: units made from a table of the buyer's own, and the tables that do not
//! load.

use crate::bench::*;
use model::{
    table_addresses, BucketSet, Call, State, Unit, Window, LOCK_ALARM_TICKS, REGISTERS,
    STANDARD_TABLE,
};

/// The standard table with other values at these addresses.
fn table(values: &[(u8, u8)]) -> Vec<u8> {
    let value = |address| values.iter().rev().find(|other| other.0 == address);
    let bytes = table_addresses().zip(STANDARD_TABLE);
    bytes
        .map(|(address, byte)| value(address).map_or(byte, |&(_, value)| value))
        .collect()
}

/// A unit made from a table that must load.
fn loaded(values: &[(u8, u8)]) -> Unit {
    let mut unit = Unit::fresh();
    assert_eq!(unit.load(&table(values)), 0, "{:x?}", values);
    unit
}

/// Tables that must not load, on a fresh unit and on those with a past.
fn refuse_tables(tables: impl IntoIterator<Item = Vec<u8>>) {
    let units = [Unit::fresh(), busy(), holding()];
    for table in tables {
        for unit in &units {
            let mut other = unit.clone();
            assert_eq!(other.load(&table), 15, "{:?}", table);
            assert_eq!(other, *unit, "{:?} changes the state", table);
        }
    }
}

/// A unit with a past: Locked and Ready, a better reference waited for, samples
/// in the open block, a backup, other registers and bucket sets, a place in the
/// week and windows.
fn busy() -> Unit {
    let mut unit = automatic(&[1, 2]);
    lock_ticks(&mut unit, 15 + 44 * 128, -7);
    write(&mut unit, 0x26, 1);
    write(&mut unit, 0x43, 9);
    write(&mut unit, 0x1c, 0x0b);
    write(&mut unit, 0x44, 90);
    let numbers = BucketSet::of(20, 10, 5, 3);
    for call in [
        Call::SetBucket { set: 3, numbers },
        Call::AssignBucket { input: 8, set: 3 },
        Call::SetWeek { place: 1_000 },
        Call::windows(&[Window::of(0, 5), Window::of(5_000, 9_000)]),
    ] {
        assert_eq!(unit.call(&call), 0);
    }
    lock_ticks(&mut unit, 100, 5);
    tick(&mut unit, 0x04, true, 5);
    assert!(unit.wait.ticks > 0 && unit.ready() && unit.backup_held());
    assert!(unit.locked() && unit.history.open.samples > 0);
    unit
}

/// The same later on: in Holdover for some ticks, after a switch and a lock
/// alarm, with a history that builds.
fn holding() -> Unit {
    let mut unit = busy();
    write(&mut unit, 0x43, 0);
    lock_ticks(&mut unit, 1, 0);
    clean_ticks(&mut unit, u32::from(LOCK_ALARM_TICKS));
    write(&mut unit, 0x42, 0);
    clean_ticks(&mut unit, 3);
    assert!(unit.holdover_ticks > 0 && unit.history.builds());
    assert!(unit.inputs.iter().any(|input| input.remainder > 0));
    unit
}

/// "A buyer wants units that wake in automatic control.": such a unit locks to
/// the best of its own priorities, and no write has come.
#[test]
fn a_unit_that_wakes_in_automatic_control_locks_without_a_write() {
    let mut unit = loaded(&[(0x40, 1), (0x1c, 0x0a), (0x1d, 0x09)]);
    measure(&mut unit, 1, 0);
    measure(&mut unit, 2, 0);
    clean_ticks(&mut unit, 78);
    assert_eq!(byte(&unit, 0x48), 0x00);
    clean_ticks(&mut unit, 1);
    assert_eq!(byte(&unit, 0x48), 0x22);
    lock_ticks(&mut unit, 16, 0);
    assert_eq!(byte(&unit, 0x48), 0x32);
}

/// "A fresh unit may be made from 27 bytes, one for each register in address
/// order": each is read where it belongs.
#[test]
fn each_byte_is_its_registers_fresh_value() {
    let addresses: Vec<_> = table_addresses().collect();
    assert_eq!(addresses.len(), REGISTERS);
    assert!(addresses.windows(2).all(|two| two[0] < two[1]));
    assert_eq!((addresses[0], addresses[REGISTERS - 1]), (0x1c, 0x4e));
    let values = [
        (0x1c, 1),
        (0x1d, 2),
        (0x1e, 3),
        (0x1f, 4),
        (0x20, 5),
        (0x21, 6),
        (0x22, 7),
        (0x23, 8),
        (0x24, 30),
        (0x25, 1),
        (0x40, 1),
        (0x41, 9),
        (0x42, 0xf9),
        (0x43, 11),
        (0x44, 21),
        (0x45, 15),
    ];
    let unit = loaded(&values);
    for (address, value) in values {
        assert_eq!(byte(&unit, address), value, "{:#04x}", address);
    }
    assert_eq!(byte(&unit, 0x26), 0);
}

#[test]
fn the_standard_table_makes_the_standard_fresh_unit() {
    assert_eq!(loaded(&[]), Unit::fresh());
}

/// All but the registers is as in any fresh unit: Free Run, selected 0, and
/// nothing of the unit before is left.
#[test]
fn a_loaded_unit_is_fresh() {
    for values in [
        &[][..],
        &[(0x40, 1), (0x24, 0x10)],
        &[(0x41, 9)],
        &[(0x41, 3), (0x25, 1), (0x42, 0), (0x43, 255)],
    ] {
        for mut unit in [busy(), holding()] {
            assert_eq!(unit.load(&table(values)), 0);
            assert_eq!(unit, loaded(values));
            assert_eq!((unit.pll.state, unit.selected), (State::FreeRun, 0));
            let settings = unit.settings;
            let other = Unit::fresh();
            assert_eq!(Unit { settings, ..other }, unit);
        }
    }
}

/// A loaded unit is a fresh one to which its values are written before all
/// else: but for the command, a write changes its register alone.
#[test]
fn loading_is_as_writing_each_value() {
    let values = [
        (0x1c, 0xf9),
        (0x23, 0x4f),
        (0x24, 0x1f),
        (0x25, 1),
        (0x40, 1),
        (0x41, 5),
        (0x42, 0xa5),
        (0x43, 2),
        (0x44, 127),
        (0x45, 121),
    ];
    let mut unit = Unit::fresh();
    for (address, value) in values {
        write(&mut unit, address, value);
    }
    assert_eq!(loaded(&values), unit);
}

/// Bits 7-4 of 0x1c to 0x23 are dropped, as a write drops them.
#[test]
fn an_inputs_upper_bits_are_dropped() {
    for address in 0x1c..=0x23 {
        for value in 0..=255 {
            let unit = loaded(&[(address, value)]);
            assert_eq!(byte(&unit, address), value & 0x0f);
        }
    }
}

/// "read-only registers and the command must have 0"; "15: [...] a forbidden
/// nonzero"
#[test]
fn read_only_registers_and_the_command_have_0() {
    for address in [0x26, 0x27].into_iter().chain(0x46..=0x4e) {
        refuse_tables((1..=255).map(|value| table(&[(address, value)])));
    }
}

/// "15: wrong length"
#[test]
fn other_lengths_do_not_load() {
    let bytes = table(&[]).repeat(12);
    let n = REGISTERS;
    let lengths = [0, 1, 8, 12, n - 1, n + 1, n + 2, 2 * n, 256 + n, 300];
    refuse_tables(lengths.map(|length| bytes[..length].to_vec()));
}

/// "a value above Largest", and "the only check of loading": all others load.
#[test]
fn values_up_to_largest_load() {
    for (address, largest) in LARGEST.into_iter().chain([(0x1c, 255), (0x23, 255)]) {
        // The reject limit stays 6 above the standard qualification limit.
        let least = if address == 0x44 { 31 } else { 0 };
        for value in least..=largest {
            loaded(&[(address, value)]);
        }
        let above = largest..255;
        refuse_tables(above.map(|value| table(&[(address, value + 1)])));
    }
    refuse_tables((128..=255).map(|value| table(&[(0x44, 127), (0x45, value)])));
}

/// "reject − qualification under 6", in the table's own values: those of the
/// unit before play no part.
#[test]
fn limits_6_apart_load() {
    for qualification in 0..=127 {
        for reject in 0..=127 {
            let values = [(0x44, reject), (0x45, qualification)];
            if reject >= qualification + 6 {
                loaded(&values);
            } else {
                let mut unit = Unit::fresh();
                assert_eq!(unit.load(&table(&values)), 15, "{:?}", values);
                assert_eq!(unit, Unit::fresh());
            }
        }
    }
    refuse_tables([table(&[(0x44, 30)]), table(&[(0x44, 20), (0x45, 25)])]);
}

/// "Histories from a fresh unit then include those from every table that
/// loads.": it begins with the load, and what was before plays no part.
#[test]
fn a_load_starts_a_new_history() {
    let mut unit = busy();
    assert_eq!(unit.load(&table(&[(0x40, 1), (0x42, 0x02)])), 0);
    assert!(!unit.ready() && !unit.backup_held());
    refuse(&mut unit, write_event(0x26, 2), 8);
    measure(&mut unit, 2, 0);
    clean_ticks(&mut unit, 79);
    lock_ticks(&mut unit, 15 + 43 * 128, 3);
    assert_eq!((unit.ready(), value(&unit)), (true, 3));
}
