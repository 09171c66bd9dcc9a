//! The register map: fresh values, what a write leaves to be read.

use crate::bench::*;
use model::Unit;

#[test]
fn fresh_values() {
    let unit = Unit::fresh();
    for address in (0x1c..=0x27).chain(0x40..=0x4e) {
        let fresh = match address {
            0x42 => 255,
            0x44 => 31,
            0x45 => 25,
            // Free Run: the alarm, and not Locked.
            0x49 => 3,
            _ => 0,
        };
        assert_eq!(byte(&unit, address), fresh, "{:#04x}", address);
    }
}

#[test]
fn an_accepted_write_is_read_back() {
    let mut unit = Unit::fresh();
    for (address, largest) in LARGEST {
        // The reject limit stays 6 above the fresh qualification limit.
        let least = if address == 0x44 { 31 } else { 0 };
        for value in least..=largest {
            write(&mut unit, address, value);
            assert_eq!(byte(&unit, address), value);
        }
    }
    for value in 0..=121 {
        write(&mut unit, 0x45, value);
        assert_eq!(byte(&unit, 0x45), value);
    }
}

#[test]
fn an_inputs_upper_bits_are_ignored() {
    let mut unit = Unit::fresh();
    for address in 0x1c..=0x23 {
        for value in 0..=255 {
            write(&mut unit, address, value);
            assert_eq!(byte(&unit, address), value & 0x0f);
        }
    }
}

#[test]
fn the_value_is_read_low_byte_first() {
    let mut unit = automatic(&[1]);
    lock_ticks(&mut unit, 15 + 43 * 128, -2);
    let bytes = [0x4a, 0x4b, 0x4c, 0x4d].map(|address| byte(&unit, address));
    assert_eq!(bytes, [0xfe, 0xff, 0xff, 0xff]);
}
