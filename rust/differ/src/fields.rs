//! The four fields of an event, as the controller's interface takes them; they
//! may be no event at all.

use model::Event;
use std::fmt;

#[derive(Clone, Copy, Debug, PartialEq, Eq)]
pub struct Fields {
    pub kind: u8,
    pub a: u8,
    pub b: u8,
    pub word: i32,
}

impl Fields {
    pub fn event(&self) -> Option<Event> {
        Event::from_fields(self.kind, self.a, self.b, self.word)
    }
}

impl From<Event> for Fields {
    fn from(event: Event) -> Fields {
        let (kind, a, b, word) = event.to_fields();
        Fields { kind, a, b, word }
    }
}

impl fmt::Display for Fields {
    fn fmt(&self, f: &mut fmt::Formatter) -> fmt::Result {
        match self.event() {
            Some(Event::Tick { mask, lock, sample }) => {
                let lock = u8::from(lock);
                write!(f, "tick mask {:#04x} lock {} sample {}", mask, lock, sample)
            }
            Some(Event::Measurement { input, offset }) => {
                write!(f, "measurement input {} offset {}", input, offset)
            }
            Some(Event::Hit) => write!(f, "Hit"),
            Some(Event::Write { address, value }) => {
                write!(f, "write {:#04x} = {:#04x}", address, value)
            }
            Some(Event::FinerMeasurement { input, offset }) => {
                write!(f, "finer measurement input {} offset {}", input, offset)
            }
            None => write!(
                f,
                "no event: kind {} a {:#04x} b {:#04x} word {}",
                self.kind, self.a, self.b, self.word
            ),
        }
    }
}
