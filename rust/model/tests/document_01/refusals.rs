//! Each refusal of an event or a read, and that it leaves the state.

use crate::bench::*;
use model::{Event, Unit};

/// Units in which each kind of event is tried: fresh, Locked with a history,
/// in Holdover.
fn units() -> [Unit; 3] {
    [Unit::fresh(), with_blocks(43), holdover()]
}

fn in_the_map(address: u8) -> bool {
    (0x1c..=0x27).contains(&address) || (0x40..=0x4e).contains(&address)
}

#[test]
fn number_1_address_not_in_the_map() {
    for mut unit in units() {
        for address in (0..=255).filter(|&address| !in_the_map(address)) {
            assert_eq!(unit.read(address), (1, 0));
            refuse(&mut unit, write_event(address, 0), 1);
            refuse(&mut unit, write_event(address, 255), 1);
        }
        for address in (0..=255).filter(|&address| in_the_map(address)) {
            assert_eq!(unit.read(address).0, 0);
        }
    }
}

#[test]
fn number_2_write_to_a_read_only_register() {
    for mut unit in units() {
        for address in (0x46..=0x4e).chain([0x27]) {
            refuse(&mut unit, write_event(address, 0), 2);
            refuse(&mut unit, write_event(address, 255), 2);
        }
    }
}

#[test]
fn number_3_value_above_largest() {
    let largest = [
        (0x24, 31),
        (0x25, 1),
        (0x26, 3),
        (0x40, 1),
        (0x41, 9),
        (0x44, 127),
        (0x45, 127),
    ];
    for mut unit in units() {
        for (address, largest) in largest {
            for value in largest + 1..=255 {
                refuse(&mut unit, write_event(address, value), 3);
            }
        }
    }
}

#[test]
fn number_4_limits_too_close() {
    for mut unit in units() {
        for reject in 0..=30 {
            refuse(&mut unit, write_event(0x44, reject), 4);
        }
        for qualification in 26..=127 {
            refuse(&mut unit, write_event(0x45, qualification), 4);
        }
    }
}

#[test]
fn number_5_hit_with_no_reference_selected() {
    let mut free_run_selected = automatic(&[]);
    write(&mut free_run_selected, 0x24, 0x10);
    clean_ticks(&mut free_run_selected, 1);
    assert_eq!(free_run_selected.selected, 9);
    for mut unit in [Unit::fresh(), holdover(), free_run_selected] {
        refuse(&mut unit, Event::Hit, 5);
    }
}

#[test]
fn number_6_input_not_1_to_8() {
    for mut unit in units() {
        for input in (9..=255).chain([0]) {
            refuse(&mut unit, Event::Measurement { input, offset: 0 }, 6);
        }
    }
}

#[test]
fn number_7_sample_out_of_range() {
    for mut unit in units() {
        for sample in [125_000_001, -125_000_001, i32::MAX, i32::MIN] {
            let event = Event::Tick {
                mask: 1,
                lock: true,
                sample,
            };
            refuse(&mut unit, event, 7);
        }
        tick(&mut unit, 0, true, 125_000_000);
        tick(&mut unit, 0, true, -125_000_000);
    }
}

#[test]
fn number_8_command_not_possible() {
    for mut unit in [Unit::fresh(), with_blocks(42)] {
        refuse(&mut unit, write_event(0x26, 1), 8);
        refuse(&mut unit, write_event(0x26, 2), 8);
    }
    let mut ready = with_blocks(43);
    refuse(&mut ready, write_event(0x26, 2), 8);
    write(&mut ready, 0x26, 1);
    write(&mut ready, 0x26, 2);
    write(&mut ready, 0x26, 3);
    refuse(&mut ready, write_event(0x26, 1), 8);
    assert_eq!(byte(&ready, 0x26), 3);
}

#[test]
fn number_12_fields_that_are_no_event() {
    let no_events = [
        (5, 0, 0, 0),
        (255, 0, 0, 0),
        (0, 0, 2, 0),
        (0, 0, 255, 125_000_001),
        (1, 1, 0, 1),
        (1, 0, 0, -1),
        (2, 1, 0, 0),
        (2, 0, 1, 0),
        (2, 0, 0, 1),
        (3, 0x40, 1, 1),
        (3, 0x00, 0, i32::MIN),
    ];
    for mut unit in units() {
        for (kind, a, b, word) in no_events {
            let before = unit.clone();
            assert_eq!(Event::from_fields(kind, a, b, word), None);
            assert_eq!(unit.event_fields(kind, a, b, word), 12);
            assert_eq!(unit, before);
        }
    }
}

/// Every event survives the way to its fields and back, and its fields give
/// the event's own number.
#[test]
fn fields_carry_each_event() {
    let events = [
        Event::Tick {
            mask: 0x81,
            lock: true,
            sample: -125_000_001,
        },
        Event::Tick {
            mask: 0,
            lock: false,
            sample: 7,
        },
        Event::Measurement {
            input: 0,
            offset: -128,
        },
        Event::Measurement {
            input: 8,
            offset: 127,
        },
        Event::Hit,
        write_event(0x27, 255),
        write_event(0x42, 0),
    ];
    for event in events {
        let (kind, a, b, word) = event.to_fields();
        assert_eq!(Event::from_fields(kind, a, b, word), Some(event));
        let mut by_event = Unit::fresh();
        let mut by_fields = Unit::fresh();
        let numbers = (
            by_event.event(&event),
            by_fields.event_fields(kind, a, b, word),
        );
        assert_eq!(numbers.0, numbers.1);
        assert_eq!(by_event, by_fields);
    }
}
