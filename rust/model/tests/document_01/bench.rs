//! Short ways to bring a unit to where a test begins.

use model::{Event, Unit};

/// The column "Largest", but for the inputs, the command and the qualification
/// limit.
pub const LARGEST: [(u8, u8); 7] = [
    (0x24, 31),
    (0x25, 1),
    (0x40, 1),
    (0x41, 9),
    (0x42, 255),
    (0x43, 255),
    (0x44, 127),
];

/// Takes events that must be accepted.
pub fn accept(unit: &mut Unit, event: Event) {
    assert_eq!(unit.event(&event), 0, "{:?} is refused", event);
}

/// Takes an event that must be refused with this number, the state unchanged.
pub fn refuse(unit: &mut Unit, event: Event, number: u8) {
    let before = unit.clone();
    assert_eq!(unit.event(&event), number, "{:?}", event);
    assert_eq!(*unit, before, "{:?} changes the state", event);
}

pub fn tick(unit: &mut Unit, mask: u8, lock: bool, sample: i32) {
    accept(unit, Event::Tick { mask, lock, sample });
}

/// Clean ticks, lock flag clear.
pub fn clean_ticks(unit: &mut Unit, count: u32) {
    masked_ticks(unit, count, 0);
}

/// Ticks with an irregular mask, lock flag clear.
pub fn masked_ticks(unit: &mut Unit, count: u32, mask: u8) {
    for _ in 0..count {
        tick(unit, mask, false, 0);
    }
}

/// Clean ticks, lock flag set, with a sample.
pub fn lock_ticks(unit: &mut Unit, count: u32, sample: i32) {
    for _ in 0..count {
        tick(unit, 0, true, sample);
    }
}

pub fn measure(unit: &mut Unit, input: u8, offset: i8) {
    accept(unit, Event::Measurement { input, offset });
}

pub fn write(unit: &mut Unit, address: u8, value: u8) {
    accept(unit, Event::Write { address, value });
}

pub fn hit(unit: &mut Unit) {
    accept(unit, Event::Hit);
}

/// The byte of a register of the map.
pub fn byte(unit: &Unit, address: u8) -> u8 {
    let (refusal, byte) = unit.read(address);
    assert_eq!(refusal, 0, "reading {:#04x} is refused", address);
    byte
}

/// The history's value from its four registers.
pub fn value(unit: &Unit) -> i32 {
    i32::from_le_bytes([0x4a, 0x4b, 0x4c, 0x4d].map(|address| byte(unit, address)))
}

/// Automatic control, these inputs qualified, the best of them selected.
pub fn automatic(inputs: &[u8]) -> Unit {
    let mut unit = Unit::fresh();
    write(&mut unit, 0x40, 1);
    qualify(&mut unit, inputs);
    unit
}

/// Manual control, these inputs qualified, Op_Mode 0.
pub fn manual(inputs: &[u8]) -> Unit {
    let mut unit = Unit::fresh();
    qualify(&mut unit, inputs);
    unit
}

fn qualify(unit: &mut Unit, inputs: &[u8]) {
    for &input in inputs {
        measure(unit, input, 0);
    }
    clean_ticks(unit, 79);
}

/// Automatic control, input 1 selected and just Locked: one sample of 0.
pub fn locked() -> Unit {
    let mut unit = automatic(&[1]);
    lock_ticks(&mut unit, 16, 0);
    unit
}

/// As `locked`, with this many blocks kept, all samples 0, open block empty.
pub fn with_blocks(blocks: u32) -> Unit {
    let mut unit = locked();
    lock_ticks(&mut unit, 128 * blocks - 1, 0);
    unit
}

/// In Holdover by a Hit, with 43 blocks; the input stays masked.
pub fn holdover() -> Unit {
    let mut unit = with_blocks(43);
    hit(&mut unit);
    write(&mut unit, 0x42, 0);
    unit
}

/// Inputs 1 and 2 qualified; 2 selected and revertive, 1 waiting for reversion
/// with this delay.
pub fn reverting(delay: u8) -> Unit {
    let mut unit = automatic(&[1, 2]);
    write(&mut unit, 0x1d, 0x08);
    write(&mut unit, 0x43, delay);
    write(&mut unit, 0x42, 0xfe);
    clean_ticks(&mut unit, 1);
    assert_eq!(unit.selected, 2);
    write(&mut unit, 0x42, 0xff);
    unit
}

/// Ticks with the lock flag set, so that no lock alarm comes in between.
pub fn wait_ticks(unit: &mut Unit, count: u32) {
    lock_ticks(unit, count, 0);
}

pub fn write_event(address: u8, value: u8) -> Event {
    Event::Write { address, value }
}

/// What ends a wait for input 1 while input 2 is selected: input 1 masked, input
/// 2 non-revertive, manual control, a Hit.
pub const ENDS_OF_A_WAIT: [fn(&mut Unit); 4] = [
    |unit| write(unit, 0x42, 0xfe),
    |unit| write(unit, 0x1d, 0x00),
    |unit| {
        write(unit, 0x41, 2);
        write(unit, 0x40, 0);
    },
    hit,
];
