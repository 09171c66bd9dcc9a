//! One event of a run sheet, as the fields that documents 01 and 02 give it.

use controller::FINER_MEASUREMENT;
use sheets::BYTES_PER_EVENT;

/// What `a`, `b` and `word` hold is the kind's to say: a tick's mask, lock flag
/// and sample; a measurement's input and offset, a finer one's in the word; a
/// write's address and value.
#[derive(Clone, Copy, Debug, PartialEq, Eq)]
pub struct Event {
    pub kind: u8,
    pub a: u8,
    pub b: u8,
    pub word: i32,
}

impl Event {
    /// An event without a word.
    pub fn short(kind: u8, a: u8, b: u8) -> Event {
        let word = 0;
        Event { kind, a, b, word }
    }

    /// A measurement with its offset in steps of 1/64 ppm.
    pub fn finer_measurement(input: u8, offset: i16) -> Event {
        Event {
            word: i32::from(offset),
            ..Event::short(FINER_MEASUREMENT, input, 0)
        }
    }

    pub fn to_bytes(self) -> [u8; BYTES_PER_EVENT] {
        let [low, second, third, high] = self.word.to_le_bytes();
        [self.kind, self.a, self.b, 0, low, second, third, high]
    }

    /// The event at the front of these bytes; the unused fourth is left out.
    pub fn from_bytes(bytes: &[u8]) -> Event {
        Event {
            kind: bytes[0],
            a: bytes[1],
            b: bytes[2],
            word: i32::from_le_bytes([bytes[4], bytes[5], bytes[6], bytes[7]]),
        }
    }
}
