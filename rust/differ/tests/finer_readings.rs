//! #106, the real controller beside both models: every offset of 16 bits at
//! several limits, each byte of the old kind beside 32 times it, and fields that
//! are no event. The controller's unit is held as bytes, each of which a refusal
//! leaves.

#[cfg(feature = "controller")]
#[path = "devices/held.rs"]
mod held;

use differ::fields::Fields;
use model::{fast, Event, Unit};

/// Reject and qualification limits, one pair for each input: the fresh ones, the
/// least, the largest, and some between.
const LIMITS: [(u8, u8); 8] = [
    (31, 25),
    (6, 0),
    (127, 121),
    (127, 0),
    (8, 1),
    (64, 58),
    (100, 40),
    (126, 120),
];

/// What is measured: it takes fields, and shows its frequency alarms.
trait Measured: Clone + PartialEq {
    fn fresh_unit() -> Self;

    /// The refusal's number, 0 if accepted.
    fn send(&mut self, fields: Fields) -> u8;

    /// The frequency alarm of each input.
    fn alarms(&self) -> [bool; 8];

    fn accept(&mut self, event: Event) {
        assert_eq!(self.send(event.into()), 0, "{:?}", event);
    }
}

impl Measured for Unit {
    fn fresh_unit() -> Unit {
        Unit::fresh()
    }

    fn send(&mut self, fields: Fields) -> u8 {
        self.event_fields(fields.kind, fields.a, fields.b, fields.word)
    }

    fn alarms(&self) -> [bool; 8] {
        self.inputs.map(|input| input.frequency_alarm)
    }
}

impl Measured for fast::Unit {
    fn fresh_unit() -> fast::Unit {
        fast::Unit::fresh()
    }

    fn send(&mut self, fields: Fields) -> u8 {
        self.event_fields(fields.kind, fields.a, fields.b, fields.word)
    }

    fn alarms(&self) -> [bool; 8] {
        self.monitors.frequency_alarm.map(|alarm| alarm == 1)
    }
}

#[cfg(feature = "controller")]
impl Measured for held::Held {
    fn fresh_unit() -> held::Held {
        held::Held::fresh_unit()
    }

    fn send(&mut self, fields: Fields) -> u8 {
        differ::device::Device::take(self, fields.into())
    }

    fn alarms(&self) -> [bool; 8] {
        self.unit().monitors.frequency.map(|alarm| alarm == 1)
    }
}

fn old(input: u8, offset: i8) -> Event {
    Event::Measurement { input, offset }
}

fn finer(input: u8, offset: i16) -> Event {
    Event::FinerMeasurement { input, offset }
}

/// A fresh unit with these limits.
fn with_limits<M: Measured>((reject, qualification): (u8, u8)) -> M {
    let mut unit = M::fresh_unit();
    for (address, value) in [(0x45, 0), (0x44, reject), (0x45, qualification)] {
        unit.accept(Event::Write { address, value });
    }
    unit
}

/// The frequency alarm set, or clear: −128 is above each limit, 0 above none.
fn start<M: Measured>(unit: &mut M, input: u8, set: bool) {
    unit.accept(old(input, if set { -128 } else { 0 }));
    assert_eq!(unit.alarms()[usize::from(input) - 1], set);
}

/// The alarm after a measurement, by the sentences of both documents.
fn judged(offset: i16, (reject, qualification): (u8, u8), before: bool) -> bool {
    let magnitude = i32::from(offset).abs();
    let above = |limit: u8| magnitude > 32 * i32::from(limit);
    above(reject) || before && above(qualification)
}

/// Every offset, from both alarm states; the other inputs keep theirs.
fn check_offsets<M: Measured>() {
    for (input, limits) in (1..=8).zip(LIMITS) {
        let mut unit = with_limits::<M>(limits);
        start(&mut unit, input % 8 + 1, false);
        for offset in i16::MIN..=i16::MAX {
            for set in [true, false] {
                start(&mut unit, input, set);
                let mut expected = unit.alarms();
                expected[usize::from(input) - 1] = judged(offset, limits, set);
                unit.accept(finer(input, offset));
                assert_eq!(unit.alarms(), expected, "{} at {:?}", offset, limits);
            }
        }
    }
}

#[test]
fn every_offset_of_16_bits() {
    check_offsets::<Unit>();
    check_offsets::<fast::Unit>();
    #[cfg(feature = "controller")]
    check_offsets::<held::Held>();
}

/// "A measurement of the old kind means 32 times its byte": the whole unit is
/// the same after either.
fn check_bytes<M: Measured>() {
    for (input, limits) in (1..=8).zip(LIMITS) {
        for byte in i8::MIN..=i8::MAX {
            for set in [true, false] {
                let mut one = with_limits::<M>(limits);
                start(&mut one, input, set);
                let mut other = one.clone();
                one.accept(old(input, byte));
                other.accept(finer(input, 32 * i16::from(byte)));
                assert!(one == other, "{} at {:?}", byte, limits);
            }
        }
    }
}

#[test]
fn each_byte_of_the_old_kind_is_32_times_it() {
    check_bytes::<Unit>();
    check_bytes::<fast::Unit>();
    #[cfg(feature = "controller")]
    check_bytes::<held::Held>();
}

/// Words that are no 16-bit number: all that are near, and far ones whose lower
/// half is small.
fn words_out_of_16_bits() -> impl Iterator<Item = i32> {
    let near = (32_768..=131_072).chain(-131_072..=-32_769);
    let far = (-32_768..=32_767).filter(|&half| half < -1 || half > 0);
    let far = far.flat_map(|half| [0, 1, 800].map(|low| half * 65_536 + low));
    near.chain(far)
}

/// Fields that are no event: 12, also where there is no such input, and the unit
/// is as it was.
fn check_no_events<M: Measured>() {
    let mut unit = M::fresh_unit();
    start(&mut unit, 1, false);
    let before = unit.clone();
    let mut refuse = |kind, a, b, word| {
        let fields = Fields { kind, a, b, word };
        assert_eq!(unit.send(fields), 12, "{}", fields);
        assert!(unit == before, "{}", fields);
    };
    for word in words_out_of_16_bits() {
        refuse(4, 1, 0, word);
    }
    for input in 0..=255 {
        for word in [32_768, -32_769, i32::MAX, i32::MIN] {
            refuse(4, input, 0, word);
        }
        for b in 1..=255 {
            refuse(4, input, b, 0);
        }
        for kind in 5..=255 {
            refuse(kind, input, 0, 0);
        }
    }
}

/// The tuned model takes events and no fields: its 12 is told in sheets.
#[test]
fn fields_that_are_no_event() {
    check_no_events::<Unit>();
    #[cfg(feature = "controller")]
    check_no_events::<held::Held>();
}

/// Inputs that there are not: 6 for every good word, and the unit is as it was.
fn check_inputs<M: Measured>() {
    let mut unit = M::fresh_unit();
    start(&mut unit, 8, false);
    let before = unit.clone();
    for input in (9..=255).chain([0]) {
        for offset in [0, 1, -1, 993, i16::MAX, i16::MIN] {
            let fields = Fields::from(finer(input, offset));
            assert_eq!(unit.send(fields), 6, "{}", fields);
            assert!(unit == before, "{}", fields);
        }
    }
}

#[test]
fn inputs_that_there_are_not() {
    check_inputs::<Unit>();
    check_inputs::<fast::Unit>();
    #[cfg(feature = "controller")]
    check_inputs::<held::Held>();
}
