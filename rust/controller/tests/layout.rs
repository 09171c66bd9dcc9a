//! The places of the fields in the structs that the library shares, and a
//! first word with the library.

use controller::{register_slot, Set, Unit, REGISTERS};

/// The distance of a part of the unit from its beginning.
fn offset<T>(unit: &Unit, part: &T) -> usize {
    part as *const T as usize - unit as *const Unit as usize
}

#[test]
fn the_fields_lie_where_the_interface_says() {
    let unit = Unit::fresh();
    let (core, monitors) = (&unit.core, &unit.monitors);
    let (buckets, history) = (&unit.buckets, &unit.history);
    let (tally, choice, pll, set) = (&core.tally, &core.choice, &core.pll, &buckets.sets[0]);
    let places = [
        ("open", offset(&unit, &tally.open), 0),
        ("filled", offset(&unit, &tally.filled), 8),
        ("count", offset(&unit, &tally.count), 10),
        ("built", offset(&unit, &tally.built), 11),
        ("backed", offset(&unit, &tally.backed), 12),
        ("builds", offset(&unit, &tally.builds), 13),
        ("last", offset(&unit, &tally.last), 14),
        ("command", offset(&unit, &tally.command), 15),
        ("wait", offset(&unit, &choice.wait), 16),
        ("selected", offset(&unit, &choice.selected), 20),
        ("awaited", offset(&unit, &choice.awaited), 24),
        ("holding", offset(&unit, &core.holding), 28),
        ("place", offset(&unit, &core.place), 32),
        ("unlock", offset(&unit, &pll.unlock), 36),
        ("mode", offset(&unit, &pll.mode), 40),
        ("lock", offset(&unit, &pll.lock), 44),
        ("level", offset(&unit, &monitors.level), 48),
        ("decay", offset(&unit, &monitors.decay), 64),
        ("activity", offset(&unit, &monitors.activity), 80),
        ("frequency", offset(&unit, &monitors.frequency), 96),
        ("remainder", offset(&unit, &monitors.remainder), 112),
        ("soak", offset(&unit, &monitors.soak), 128),
        ("size", offset(&unit, &set.size), 144),
        ("set_level", offset(&unit, &set.set_level), 145),
        ("clear_level", offset(&unit, &set.clear_level), 146),
        ("decay_last", offset(&unit, &set.decay_last), 147),
        ("assigned", offset(&unit, &buckets.assigned), 160),
        ("sums", offset(&unit, &history.sums), 176),
        ("building", offset(&unit, &history.building), 688),
        ("backup", offset(&unit, &history.backup), 1200),
        ("windows", offset(&unit, &unit.windows), 1712),
        ("regs", offset(&unit, &unit.regs), 1776),
    ];
    for (name, found, expected) in places {
        assert_eq!(found, expected, "{}", name);
    }
}

/// The addresses that can be read have the slots one after the other.
#[test]
fn each_register_has_its_slot() {
    let unit = Unit::fresh();
    let mut slots = 0..REGISTERS;
    for address in 0..=255 {
        let expected = match unit.read(address).0 {
            0 => slots.next(),
            _ => None,
        };
        assert_eq!(register_slot(address), expected, "{:#04x}", address);
    }
    assert_eq!(slots.next(), None);
}

/// Fresh bytes, a refusal, an accepted write, and a unit made fresh again, through
/// the library.
#[test]
fn the_library_answers() {
    let mut unit = Unit::fresh();
    assert_eq!(unit.read(0x42), (0, 255));
    assert_eq!(unit.read(0x49), (0, 3));
    assert_eq!(unit.read(0x00), (1, 0));
    let before = unit;
    assert_eq!(unit.event(2, 0, 0, 0), 5);
    assert_eq!(unit, before);
    assert_eq!(unit.event(3, 0x40, 1, 0), 0);
    assert_eq!(unit.read(0x40), (0, 1));
    unit.make();
    assert_eq!(unit, Unit::fresh());
}

/// The sets of a fresh unit, the two calls and their refusals, through the
/// library.
#[test]
fn the_library_takes_bucket_sets() {
    let mut unit = Unit::fresh();
    let fresh = Set {
        size: 8,
        set_level: 6,
        clear_level: 4,
        decay_last: 1,
    };
    assert_eq!(unit.buckets.sets, [fresh; 4]);
    assert_eq!(unit.buckets.assigned, [0; 8]);
    assert_eq!(unit.set_bucket(3, 20, 10, 5, 3), 0);
    let other = Set {
        size: 20,
        set_level: 10,
        clear_level: 5,
        decay_last: 7,
    };
    assert_eq!(unit.buckets.sets, [fresh, fresh, fresh, other]);
    assert_eq!(unit.assign_bucket(8, 3), 0);
    assert_eq!(unit.buckets.assigned, [0, 0, 0, 0, 0, 0, 0, 3]);
    let monitors = &unit.monitors;
    let input = (monitors.level[7], monitors.activity[7], monitors.decay[7]);
    assert_eq!(input, (20, 1, 0));
    let before = unit;
    assert_eq!(unit.set_bucket(4, 20, 10, 5, 3), 14);
    assert_eq!(unit.assign_bucket(9, 4), 6);
    assert_eq!(unit.assign_bucket(8, 4), 14);
    assert_eq!(unit, before);
}

/// The week of a fresh unit, its two calls and their refusals, through the
/// library.
#[test]
fn the_library_takes_the_week() {
    let mut unit = Unit::fresh();
    assert_eq!((unit.core.place, unit.windows), (0, [0; 16]));
    let mut windows = [7; 16];
    windows[..4].copy_from_slice(&[0, 10, 11, 4_724_999]);
    assert_eq!(unit.set_windows(2, &windows), 0);
    assert_eq!(unit.set_week(4_724_999), 0);
    let mut kept = [0; 16];
    kept[..4].copy_from_slice(&windows[..4]);
    assert_eq!((unit.core.place, unit.windows), (4_724_999, kept));
    let before = unit;
    assert_eq!(unit.set_week(4_725_000), 16);
    assert_eq!(unit.set_windows(3, &windows), 16);
    assert_eq!(unit.set_windows(9, &windows), 16);
    assert_eq!(unit, before);
    assert_eq!(unit.event(0, 0, 0, 0), 0);
    assert_eq!(unit.core.place, 0);
    assert_eq!(unit.set_windows(0, &windows), 0);
    assert_eq!(unit.windows, [0; 16]);
}

/// A table that loads, with a byte for each register, and tables that do not,
/// through the library: all else of the unit is fresh, or as it was.
#[test]
fn the_library_takes_tables() {
    let table = [
        1, 2, 3, 4, 5, 6, 7, 0xf8, 31, 1, 0, 0, 1, 9, 10, 11, 21, 15, 0, 0, 0, 0, 0, 0, 0, 0, 0,
    ];
    let mut regs = [0; 32];
    regs[..REGISTERS].copy_from_slice(&table);
    regs[7] = 8;
    let mut unit = Unit::fresh();
    assert_eq!(unit.event(0, 0xff, 0, 0), 0);
    assert_eq!(unit.set_bucket(3, 20, 10, 5, 3), 0);
    assert_eq!(unit.load(&table), 0);
    let other = Unit::fresh();
    assert_eq!(unit, Unit { regs, ..other });
    assert_eq!(unit.event(0, 0xff, 0, 0), 0);
    let before = unit;
    assert_eq!(unit.load(&[]), 15);
    assert_eq!(unit.load(&table[..REGISTERS - 1]), 15);
    assert_eq!(unit.load(&[0; REGISTERS]), 15);
    assert_eq!(unit.load(&[255; 300]), 15);
    assert_eq!(unit, before);
}
