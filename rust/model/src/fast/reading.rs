//! The registers for speed: what a tick has at hand is shown as it is.

use super::{History, Unit};
use crate::blocks::SAMPLES_PER_BLOCK;
use crate::reading::TICKS_PER_HOUR;
use crate::refusal::Refusal;

impl Unit {
    /// As the plain model's.
    #[inline]
    pub fn read(&self, address: u8) -> (u8, u8) {
        let settings = &self.settings;
        let byte = match address {
            0x1c..=0x23 => settings.inputs[usize::from(address - 0x1c)],
            0x24 => settings.free_run,
            0x25 => settings.policy,
            0x26 => settings.command,
            0x27 => (self.holdover_ticks / TICKS_PER_HOUR).min(255) as u8,
            0x40 => settings.control,
            0x41 => settings.op_mode,
            0x42 => settings.mask,
            0x43 => settings.delay,
            0x44 => settings.reject,
            0x45 => settings.qualification,
            0x46 => self.monitors.qualified,
            0x47 => self.available(),
            0x48 => self.record(0)[1],
            0x49 => self.record(0)[3],
            0x4a..=0x4d => self.history.value().to_le_bytes()[usize::from(address - 0x4a)],
            0x4e => self.available().count_ones() as u8,
            _ => return (Refusal::NotInTheMap.number(), 0),
        };
        (0, byte)
    }
}

impl History {
    /// The mean of the samples in use, rounded down; 0 unless Ready.
    fn value(&self) -> i32 {
        if !self.ready() {
            return 0;
        }
        let samples = i64::from(SAMPLES_PER_BLOCK) * self.kept.count as i64;
        self.kept.iter().sum::<i64>().div_euclid(samples) as i32
    }
}
