//! The model and a device side by side, each event, call, table and read given
//! to both; beside them the unit under the old rules of the history, for
//! what #102 says of Ready.

use crate::device::Device;
use crate::difference::Mismatch;
use crate::fields::Fields;
use crate::sent::Sent;
use model::{Event, OldUnit, Unit};
use std::ops::RangeInclusive;

/// The two stretches of the register map.
pub const MAP: [RangeInclusive<u8>; 2] = [0x1c..=0x27, 0x40..=0x4e];

/// The write that is command 3.
const COMMAND_3: Event = Event::Write {
    address: 0x26,
    value: 3,
};

pub struct Pair<D> {
    pub model: Unit,
    pub model_before: Unit,
    device: D,
    device_before: D,
    pub old: OldUnit,
    /// What the old rules answered to the last event.
    pub old_refusal: u8,
    /// How often each address was read.
    pub reads: [u64; 256],
}

impl<D: Device> Pair<D> {
    /// A fresh model and a fresh device of this make.
    pub fn fresh(make: &D) -> Pair<D> {
        Pair {
            model: Unit::fresh(),
            model_before: Unit::fresh(),
            device: make.fresh(),
            device_before: make.fresh(),
            old: OldUnit::fresh(),
            old_refusal: 0,
            reads: [0; 256],
        }
    }

    /// Gives the event, call or table to both. They must answer alike, and if
    /// they refuse it both must be as before. The common answer is returned.
    pub fn send(&mut self, sent: Sent) -> Result<u8, Mismatch> {
        self.model_before = self.model.clone();
        self.device_before = self.device.clone();
        let model = self.model.take(sent);
        let device = self.device.take(sent);
        if model != device {
            return Err(Mismatch::Refusal { model, device });
        }
        if model != 0 {
            unchanged("model", &self.model_before, &self.model)?;
            unchanged(self.device.name(), &self.device_before, &self.device)?;
        }
        self.old_refusal = match sent {
            Sent::Fields(Fields { kind, a, b, word }) => self.old.event_fields(kind, a, b, word),
            Sent::Call(call) => self.old.call(&call),
            Sent::Load(table) => self.old.load(&table.bytes()),
        };
        self.compare_ready(sent, model)?;
        Ok(model)
    }

    /// "Over the same list from fresh, Ready stands after each event after
    /// which it stood under the old rules, and once standing it ends only by
    /// command 3." The device's Ready is compared with that of the old rules. A
    /// table that loads starts a new list from fresh.
    fn compare_ready(&self, sent: Sent, refusal: u8) -> Result<(), Mismatch> {
        let stands = shows_ready(&self.device);
        if self.old.ready() && !stands {
            return Err(Mismatch::LessReady);
        }
        let ended = shows_ready(&self.device_before) && !stands;
        let loaded = sent.table().is_some() && refusal == 0;
        if ended && !loaded && sent.event() != Some(COMMAND_3) {
            return Err(Mismatch::ReadyEnded);
        }
        Ok(())
    }

    pub fn read(&mut self, address: u8) -> Result<(), Mismatch> {
        self.reads[usize::from(address)] += 1;
        let model = self.model.read(address);
        let device = self.device.read(address);
        if model == device {
            Ok(())
        } else {
            Err(Mismatch::Read {
                address,
                model,
                device,
            })
        }
    }

    /// Reads the registers of the map.
    pub fn read_map(&mut self) -> Result<(), Mismatch> {
        for address in MAP.into_iter().flatten() {
            self.read(address)?;
        }
        Ok(())
    }

    /// Reads all 256 addresses.
    pub fn read_all(&mut self) -> Result<(), Mismatch> {
        for address in 0..=255 {
            self.read(address)?;
        }
        Ok(())
    }
}

/// Bit 2 of 0x49.
fn shows_ready<D: Device>(device: &D) -> bool {
    device.read(0x49).1 & 0x04 != 0
}

fn unchanged<T: PartialEq>(name: &'static str, before: &T, after: &T) -> Result<(), Mismatch> {
    if before == after {
        Ok(())
    } else {
        Err(Mismatch::Changed { name })
    }
}
