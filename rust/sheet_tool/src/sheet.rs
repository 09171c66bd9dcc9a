//! A run sheet: its settings and events, to and from its bytes.

use crate::event::Event;
use controller::WRITE;
use sheets::{BYTES_PER_COUNT, BYTES_PER_EVENT, BYTES_PER_SETTING, MOST_SETTINGS};

/// An address and a value.
pub type Setting = (u8, u8);

#[derive(Clone, Debug, Default, PartialEq, Eq)]
pub struct Sheet {
    pub settings: Vec<Setting>,
    pub events: Vec<Event>,
}

/// The write that a setting is run as.
pub fn write(&(address, value): &Setting) -> Event {
    Event::short(WRITE, address, value)
}

/// How many bytes a sheet of so many settings and events has.
pub fn length(settings: usize, events: usize) -> usize {
    2 * BYTES_PER_COUNT + BYTES_PER_SETTING * settings + BYTES_PER_EVENT * events
}

impl Sheet {
    /// The sheet that these bytes are, or the number that the controller's
    /// check refuses them with.
    pub fn from_bytes(bytes: &[u8]) -> Result<Sheet, u8> {
        // Each record's room is less than the bytes that it comes from, but
        // for the settings'.
        let room = bytes.len() + BYTES_PER_SETTING * MOST_SETTINGS;
        match sheets::check(bytes, room) {
            0 => Ok(Sheet::of_checked(bytes)),
            refusal => Err(refusal),
        }
    }

    fn of_checked(bytes: &[u8]) -> Sheet {
        let (count, rest) = bytes.split_at(BYTES_PER_COUNT);
        let count = usize::from(u16::from_le_bytes([count[0], count[1]]));
        let (settings, rest) = rest.split_at(BYTES_PER_SETTING * count);
        let events = &rest[BYTES_PER_COUNT..];
        Sheet {
            settings: settings
                .chunks(BYTES_PER_SETTING)
                .map(|pair| (pair[0], pair[1]))
                .collect(),
            events: events
                .chunks(BYTES_PER_EVENT)
                .map(Event::from_bytes)
                .collect(),
        }
    }

    /// The bytes of a sheet within the limits.
    pub fn to_bytes(&self) -> Vec<u8> {
        let mut bytes = Vec::with_capacity(length(self.settings.len(), self.events.len()));
        bytes.extend((self.settings.len() as u16).to_le_bytes());
        for &(address, value) in &self.settings {
            bytes.extend([address, value]);
        }
        bytes.extend((self.events.len() as u16).to_le_bytes());
        for event in &self.events {
            bytes.extend(event.to_bytes());
        }
        bytes
    }

    /// What the sheet runs: the settings as writes, then the events.
    pub fn steps(&self) -> impl Iterator<Item = Event> + '_ {
        let settings = self.settings.iter().map(write);
        settings.chain(self.events.iter().copied())
    }
}
