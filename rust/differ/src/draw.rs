//! Single events, or fields that are none, calls and tables, drawn at random.

mod buckets;
mod busy_hours;
mod readings;
mod tables;

pub use buckets::{any_bucket_call, bucket_numbers, bucket_set, refused_bucket_call};
pub use busy_hours::{any_week_call, place, refused_week_call, windows_call};
pub use readings::{any_reading, bad_reading, edge_reading, good_reading, no_reading};
pub use tables::{refused_table, table, waking_table};

use crate::fields::Fields;
use crate::sent::Sent;
use model::{Call, Event, SAMPLE_LIMIT};
use shared::random::Random;

/// Fields that are no event.
fn no_event(random: &mut Random) -> Fields {
    let (a, b, word) = (random.byte(), random.byte(), random.word() as i32);
    let (kind, a, b, word) = match random.below(5) {
        0 => (0, a, b | 2, word),
        1 => (1, a, b, word | 1),
        2 => random.pick(&[(2, a | 1, 0, 0), (2, 0, b | 1, 0), (2, 0, 0, word | 1)]),
        3 => (3, a, b, word | 1),
        _ => return no_reading(random, a % 10),
    };
    Fields { kind, a, b, word }
}

/// A tick with a sample just or far out of range.
pub fn out_of_range_tick(random: &mut Random) -> Event {
    let beyond = [SAMPLE_LIMIT + 1, -SAMPLE_LIMIT - 1, i32::MAX, i32::MIN];
    Event::Tick {
        mask: random.byte(),
        lock: random.one_in(2),
        sample: random.pick(&beyond),
    }
}

/// What does not disturb the course of a list: an event, a call or a table to
/// be refused, or a command 0 or 1.
pub fn stray(random: &mut Random) -> Sent {
    match random.below(16) {
        0 | 1 => refused_call(random).into(),
        2 => refused_table(random).into(),
        _ => stray_event(random).into(),
    }
}

/// A call to be refused.
fn refused_call(random: &mut Random) -> Call {
    let calls = [refused_bucket_call(random), refused_week_call(random)];
    random.pick(&calls)
}

fn stray_event(random: &mut Random) -> Fields {
    let value = random.byte();
    let above_largest = random.pick(&[0x24, 0x25, 0x26, 0x40, 0x41, 0x44, 0x45]);
    let not_in_the_map = random.pick(&[0x00, 0x1b, 0x28, 0x3f, 0x4f, 0xff]);
    let read_only = random.pick(&[0x27, 0x46, 0x47, 0x48, 0x49, 0x4a, 0x4d, 0x4e]);
    match random.below(8) {
        0 | 1 => no_event(random),
        2 => out_of_range_tick(random).into(),
        3 => write(not_in_the_map, value),
        4 => write(read_only, value),
        5 => write(above_largest, 0x80 | value),
        6 => write(0x26, value & 0x01),
        _ => {
            let no_input = random.pick(&[0, 9, 0x10 | value]);
            any_reading(random, no_input).into()
        }
    }
}

fn write(address: u8, value: u8) -> Fields {
    Event::Write { address, value }.into()
}

/// Random bytes in all fields, most often of a kind that there is.
pub fn any_fields(random: &mut Random) -> Fields {
    let (byte, word) = (random.byte(), random.word() as i32);
    let near_the_limit = SAMPLE_LIMIT - 2 + random.below(5) as i32;
    let near_16_bits = 32_766 + random.below(4) as i32;
    let near = random.pick(&[near_the_limit, near_16_bits]);
    let address = any_address(random);
    Fields {
        kind: random.pick(&[0, 0, 0, 1, 1, 2, 2, 3, 3, 4, 4, byte]),
        a: random.pick(&[0, byte & 0x0f, byte, address]),
        b: random.pick(&[0, 1, byte]),
        word: random.pick(&[0, 0, 0, 0, near, -near, word]),
    }
}

/// An address of the map.
pub fn any_address(random: &mut Random) -> u8 {
    let low = random.between(0x1c, 0x27) as u8;
    let high = random.between(0x40, 0x4e) as u8;
    random.pick(&[low, high])
}

/// A value for the address, most often one that is accepted.
pub fn any_value(random: &mut Random, address: u8) -> u8 {
    let byte = random.byte();
    if random.one_in(8) {
        return byte;
    }
    match address {
        0x24 => byte & 0x1f,
        0x25 | 0x40 => byte & 0x01,
        0x26 => byte & 0x03,
        0x41 => byte % 10,
        0x43 => byte % 3,
        0x44 => 25 + byte % 100,
        0x45 => byte % 50,
        _ => byte,
    }
}
