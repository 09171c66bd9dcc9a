//! Measurements of both kinds, and fields that would be one but are no event,
//! drawn at random.

use crate::fields::Fields;
use model::{finer_limit, Event, Settings};
use shared::random::Random;

/// Words that are no 16-bit number, just or far out of range.
const OUT_OF_16_BITS: [i32; 10] = [
    32_768,
    32_768,
    65_535,
    65_536,
    i32::MAX,
    -32_769,
    -32_769,
    -65_535,
    -65_536,
    i32::MIN,
];

/// A measurement of the old kind.
fn old(input: u8, offset: i8) -> Event {
    Event::Measurement { input, offset }
}

fn finer(input: u8, offset: i16) -> Event {
    Event::FinerMeasurement { input, offset }
}

/// The offset with the one sign or the other.
fn either_sign(random: &mut Random, offset: i16) -> i16 {
    random.pick(&[offset, -offset])
}

/// A measurement that clears the frequency alarm.
pub fn good_reading(random: &mut Random, input: u8, settings: &Settings) -> Event {
    let limit = settings.qualification;
    if random.one_in(2) {
        return old(input, random.below(u32::from(limit) + 1) as i8);
    }
    let offset = random.below(u32::from(finer_limit(limit)) + 1);
    finer(input, either_sign(random, offset as i16))
}

/// A measurement that sets the frequency alarm.
pub fn bad_reading(random: &mut Random, input: u8, settings: &Settings) -> Event {
    let limit = settings.reject;
    if random.one_in(2) {
        let beyond = (limit as i8).wrapping_add(1);
        return old(input, random.pick(&[beyond, beyond.wrapping_neg(), -128]));
    }
    let beyond = either_sign(random, finer_limit(limit) as i16 + 1);
    finer(input, random.pick(&[beyond, beyond, i16::MAX, i16::MIN]))
}

/// A measurement next to one of the limits, or of a largest magnitude.
pub fn edge_reading(random: &mut Random, input: u8, settings: &Settings) -> Event {
    let limit = random.pick(&[settings.reject, settings.qualification]);
    let step = random.pick(&[-1, 0, 1]);
    if random.one_in(2) {
        let edge = (limit as i8).wrapping_add(step);
        let offset = random.pick(&[edge, edge, edge.wrapping_neg(), -128, 127]);
        return old(input, offset);
    }
    let edge = either_sign(random, finer_limit(limit) as i16 + i16::from(step));
    finer(
        input,
        random.pick(&[edge, edge, edge, edge, i16::MAX, i16::MIN]),
    )
}

/// A measurement of any offset, most often a small one.
pub fn any_reading(random: &mut Random, input: u8) -> Event {
    let (byte, word) = (random.byte() as i8, random.word() as i16);
    random.pick(&[
        old(input, byte / 4),
        old(input, byte / 4),
        old(input, byte),
        finer(input, word / 16),
        finer(input, word / 16),
        finer(input, word),
    ])
}

/// A measurement of an input, but for one field or two that make it none: of
/// kind 4 with a b or a word that it cannot have, or of a kind over 4.
pub fn no_reading(random: &mut Random, input: u8) -> Fields {
    let byte = random.byte();
    let b = random.pick(&[1, 1, 255, byte | 1]);
    let kind = random.pick(&[5, 5, 255, byte.max(5)]);
    let word = i32::from(random.word() as i16);
    let beyond = random.pick(&OUT_OF_16_BITS);
    let (kind, b, word) = random.pick(&[
        (4, b, word),
        (4, b, beyond),
        (4, 0, beyond),
        (4, 0, beyond),
        (kind, 0, word),
    ]);
    Fields {
        kind,
        a: input,
        b,
        word,
    }
}
