//! A device that reverts, by what it takes and register 0x48 alone.

use differ::device::Device;
use differ::sent::Sent;
use model::{Event, SOAK_TICKS};

/// The reference that is better, and the one that is revertive and selected.
pub const R: u8 = 1;
pub const OTHER: u8 = 2;

/// A tick with no input irregular and the lock flag set, so that no lock alarm
/// comes.
pub const TICK: Event = Event::Tick {
    mask: 0,
    lock: true,
    sample: 0,
};

/// Takes what must be accepted, without the comparison with the model.
pub fn take<D: Device>(device: &mut D, sent: impl Into<Sent>) {
    let sent = sent.into();
    assert_eq!(device.take(sent), 0, "{}", sent);
}

/// What register 0x48 says is selected.
pub fn selected<D: Device>(device: &D) -> u8 {
    let (refusal, byte) = device.read(0x48);
    assert_eq!(refusal, 0);
    byte & 0x0f
}

/// Automatic control, R and OTHER measured good and qualified; OTHER alone was
/// usable and is selected, revertive; now R is usable too, and the wait begins
/// with the next tick.
pub fn reverting_device<D: Device>(make: &D, delay: u8) -> D {
    let mut device = make.fresh();
    for (address, value) in [(0x40, 1), (0x43, delay), (0x1b + OTHER, 0x09), (0x42, 0xfe)] {
        take(&mut device, Event::Write { address, value });
    }
    for input in [R, OTHER] {
        take(&mut device, Event::Measurement { input, offset: 0 });
    }
    (0..SOAK_TICKS).for_each(|_| take(&mut device, TICK));
    assert_eq!(selected(&device), OTHER);
    let (address, value) = (0x42, 0xff);
    take(&mut device, Event::Write { address, value });
    device
}

/// The tick in which it leaves OTHER for R, if it does within so many.
pub fn tick_of_switch<D: Device>(mut device: D, most: u32) -> Option<u32> {
    let left = (1..=most).find(|_| {
        take(&mut device, TICK);
        selected(&device) != OTHER
    });
    left.filter(|_| selected(&device) == R)
}
