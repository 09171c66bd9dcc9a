//! Random sheets and tables, each from its seed alone: settings and events of
//! all kinds, in runs of equal ones, also such as the unit turns down; tables
//! that load.

use controller::{register_slot, HIT, MEASUREMENT, REGISTERS, TICK, WRITE};
use shared::random::Random;
use sheet_tool::event::Event;
use sheet_tool::sheet::Sheet;

/// A sheet with so many settings and events.
pub fn sheet(random: &mut Random, settings: usize, events: usize) -> Sheet {
    let setting = |random: &mut Random| (address(random), value(random));
    Sheet {
        settings: in_runs(random, settings, setting),
        events: in_runs(random, events, event),
    }
}

/// A table that loads, of a unit in automatic control more often than not.
pub fn table(random: &mut Random) -> Vec<u8> {
    let mut table = vec![0; REGISTERS];
    let mut set = |address, value| table[slot(address)] = value;
    (0x1c..=0x23).for_each(|address| set(address, random.byte()));
    set(0x24, random.pick(&[0, 0, 0x11, 0x1f]));
    set(0x25, random.below(2) as u8);
    set(0x40, random.pick(&[0, 1, 1]));
    set(0x41, random.below(10) as u8);
    set(0x42, random.byte() | random.byte());
    set(0x43, random.below(2) as u8);
    let qualification = random.below(122);
    set(0x45, qualification as u8);
    let reject = qualification + 6 + random.below(122 - qualification);
    set(0x44, reject as u8);
    table
}

/// The slot of a register in a table.
pub fn slot(address: u8) -> usize {
    register_slot(address).expect("a register")
}

/// So many items: half of the runs are of one, a few of many.
fn in_runs<T: Copy>(random: &mut Random, count: usize, item: impl Fn(&mut Random) -> T) -> Vec<T> {
    let mut items = Vec::new();
    while items.len() < count {
        let length = match random.below(8) {
            0..=3 => 1,
            4..=6 => random.between(1, 4),
            _ => random.between(1, 100),
        };
        let item = item(random);
        items.extend((0..length).map(|_| item));
    }
    items.truncate(count);
    items
}

fn event(random: &mut Random) -> Event {
    match random.below(8) {
        0 => measurement(random),
        1 => Event::short(HIT, 0, 0),
        2 | 3 => Event::short(WRITE, address(random), value(random)),
        _ => Event {
            kind: TICK,
            a: mask(random),
            b: random.below(2) as u8,
            word: sample(random),
        },
    }
}

/// In 0.5 ppm or in 1/64 ppm.
fn measurement(random: &mut Random) -> Event {
    let input = input(random);
    match random.below(2) {
        0 => Event::short(MEASUREMENT, input, random.byte()),
        _ => Event::finer_measurement(input, finer_offset(random)),
    }
}

/// Any, or a step at most from a limit of a fresh unit, which are 25 and 31
/// times 0.5 ppm.
fn finer_offset(random: &mut Random) -> i16 {
    let any = random.word() as i16;
    let limit = 32 * random.pick(&[25, 31, -25, -31]);
    let beside = random.pick(&[-1, 0, 1]);
    random.pick(&[any, limit + beside])
}

/// Mostly an input that there is.
fn input(random: &mut Random) -> u8 {
    match random.below(4) {
        0 => random.byte(),
        _ => random.between(1, 8) as u8,
    }
}

/// Mostly a register.
fn address(random: &mut Random) -> u8 {
    match random.below(4) {
        0 => random.byte(),
        1 => random.between(0x1c, 0x27) as u8,
        _ => random.between(0x40, 0x4e) as u8,
    }
}

fn value(random: &mut Random) -> u8 {
    match random.below(2) {
        0 => random.byte(),
        _ => random.below(10) as u8,
    }
}

/// Mostly without an irregular input.
fn mask(random: &mut Random) -> u8 {
    match random.below(4) {
        0 => random.byte(),
        _ => 0,
    }
}

/// In range and out of it, with the ends of both.
fn sample(random: &mut Random) -> i32 {
    let any = random.word() as i32;
    match random.below(4) {
        0 => any,
        1 => random.pick(&[0, 125_000_000, -125_000_001, i32::MIN, i32::MAX]),
        _ => any % 1_000,
    }
}
