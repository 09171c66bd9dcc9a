//! The events, and the fields that carry them in a run sheet and through the
//! controller's interface.

/// "Tick (irregular mask, bit i−1 for input i; lock flag; frequency sample in
/// parts per 10^12, −125,000,000 to 125,000,000), Measurement (input 1 to 8;
/// signed byte in 0.5 ppm), Hit, Write (address, value byte)." Document 02,
/// #106: "The new counter resolves 1/64 ppm. The offset in a measurement becomes
/// a 16-bit signed number in that step."; one with a byte is "of the old kind".
#[derive(Clone, Copy, Debug, PartialEq, Eq)]
pub enum Event {
    Tick { mask: u8, lock: bool, sample: i32 },
    Measurement { input: u8, offset: i8 },
    Hit,
    Write { address: u8, value: u8 },
    FinerMeasurement { input: u8, offset: i16 },
}

impl Event {
    /// "Kind 0 tick (a mask, b lock 0 or 1, word sample); 1 measurement (a
    /// input, b offset); 2 Hit; 3 write (a address, b value). Unused fields
    /// are 0." Document 02, #106: "Sheet kind 4 has the input in a, b 0 and the
    /// offset in the word; a word outside −32,768 to 32,767 gives 12, which
    /// covers kinds over 4 from now on." Anything else is no event.
    #[inline]
    pub fn from_fields(kind: u8, a: u8, b: u8, word: i32) -> Option<Event> {
        match kind {
            0 if b <= 1 => Some(Event::Tick {
                mask: a,
                lock: b == 1,
                sample: word,
            }),
            1 if word == 0 => Some(Event::Measurement {
                input: a,
                offset: b as i8,
            }),
            2 if a == 0 && b == 0 && word == 0 => Some(Event::Hit),
            3 if word == 0 => Some(Event::Write {
                address: a,
                value: b,
            }),
            4 if b == 0 => Some(Event::FinerMeasurement {
                input: a,
                offset: i16::try_from(word).ok()?,
            }),
            _ => None,
        }
    }

    /// The fields (kind, a, b, word) that carry this event.
    pub fn to_fields(&self) -> (u8, u8, u8, i32) {
        match *self {
            Event::Tick { mask, lock, sample } => (0, mask, u8::from(lock), sample),
            Event::Measurement { input, offset } => (1, input, offset as u8, 0),
            Event::Hit => (2, 0, 0, 0),
            Event::Write { address, value } => (3, address, value, 0),
            Event::FinerMeasurement { input, offset } => (4, input, 0, i32::from(offset)),
        }
    }
}
