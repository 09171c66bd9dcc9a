//! #106: measurements in 1/64 ppm, those of the old kind beside them, and the
//! fields of kind 4 that are no event. The tuned model is held to the same
//! alarms and sheets.

use crate::bench::*;
use model::{fast, records, sheet_of, Event, Record, Unit};

/// Reject and qualification limits: the fresh ones, the least, the largest, and
/// some between.
const LIMITS: [(u8, u8); 7] = [
    (31, 25),
    (6, 0),
    (127, 121),
    (127, 0),
    (8, 1),
    (64, 58),
    (100, 40),
];

/// What a measurement does to the frequency alarm.
#[derive(Clone, Copy, Debug, PartialEq, Eq)]
enum Effect {
    Sets,
    Keeps,
    Clears,
}

use Effect::{Clears, Keeps, Sets};

/// Document 01's rule, all numbers in one step.
fn judged(offset: i32, reject: i32, qualification: i32) -> Effect {
    match offset.abs() {
        magnitude if magnitude > reject => Sets,
        magnitude if magnitude <= qualification => Clears,
        _ => Keeps,
    }
}

/// The rule as it was before: in steps of 0.5 ppm.
fn judged_before(byte: i8, reject: u8, qualification: u8) -> Effect {
    judged(byte.into(), reject.into(), qualification.into())
}

fn old(input: u8, offset: i8) -> Event {
    Event::Measurement { input, offset }
}

fn finer(input: u8, offset: i16) -> Event {
    Event::FinerMeasurement { input, offset }
}

/// A fresh unit, plain and tuned, with other limits.
fn with_limits(reject: u8, qualification: u8) -> (Unit, fast::Unit) {
    let (mut plain, mut tuned) = (Unit::fresh(), fast::Unit::fresh());
    for (address, value) in [(0x45, 0), (0x44, reject), (0x45, qualification)] {
        write(&mut plain, address, value);
        assert_eq!(tuned.event(&write_event(address, value)), 0);
    }
    (plain, tuned)
}

/// What a measurement of input 1 does, plain and tuned: from set and from clear.
fn effect((plain, tuned): &mut (Unit, fast::Unit), event: Event) -> Effect {
    let after = [true, false].map(|set| {
        plain.inputs[0].frequency_alarm = set;
        tuned.monitors.frequency_alarm[0] = i16::from(set);
        accept(plain, event);
        assert_eq!(tuned.event(&event), 0);
        let alarm = plain.input(1).frequency_alarm;
        assert_eq!(tuned.monitors.frequency_alarm[0], i16::from(alarm));
        alarm
    });
    match after {
        [true, true] => Sets,
        [true, false] => Keeps,
        [false, false] => Clears,
        [false, true] => panic!("{:?} turns the alarm round", event),
    }
}

/// "the limits are compared as 32 times theirs": at them, a step above them, and
/// a step below.
#[test]
fn the_limits_are_compared_as_32_times_theirs() {
    for (limits, effects) in [
        (
            (31, 25),
            [(992, Keeps), (993, Sets), (800, Clears), (801, Keeps)],
        ),
        (
            (127, 121),
            [
                (4_064, Keeps),
                (4_065, Sets),
                (3_872, Clears),
                (3_873, Keeps),
            ],
        ),
        (
            (127, 0),
            [(4_064, Keeps), (4_065, Sets), (0, Clears), (1, Keeps)],
        ),
        ((6, 0), [(192, Keeps), (193, Sets), (0, Clears), (1, Keeps)]),
        (
            (64, 58),
            [
                (2_047, Keeps),
                (2_049, Sets),
                (1_855, Clears),
                (1_857, Keeps),
            ],
        ),
    ] {
        let mut units = with_limits(limits.0, limits.1);
        for (offset, expected) in effects {
            for offset in [offset, -offset] {
                let found = effect(&mut units, finer(1, offset));
                assert_eq!(found, expected, "{} at {:?}", offset, limits);
            }
        }
    }
}

/// "The offset in a measurement becomes a 16-bit signed number": each of them.
#[test]
fn each_offset_is_judged_by_its_magnitude() {
    for (reject, qualification) in LIMITS {
        let mut units = with_limits(reject, qualification);
        let [reject, qualification] = [reject, qualification].map(|limit| 32 * i32::from(limit));
        for offset in i16::MIN..=i16::MAX {
            let expected = judged(offset.into(), reject, qualification);
            assert_eq!(effect(&mut units, finer(1, offset)), expected, "{}", offset);
        }
    }
}

/// The magnitude of −32,768 is above each limit, as that of 32,767.
#[test]
fn the_largest_magnitudes_set() {
    for (reject, qualification) in LIMITS {
        let mut units = with_limits(reject, qualification);
        for offset in [-32_768, -32_767, 32_767] {
            assert_eq!(effect(&mut units, finer(1, offset)), Sets);
        }
    }
}

/// "A measurement of the old kind means 32 times its byte": the whole unit is
/// the same after either.
#[test]
fn an_old_measurement_is_a_finer_one_of_32_times_its_byte() {
    for (reject, qualification) in LIMITS {
        let (mut start, _) = with_limits(reject, qualification);
        for byte in i8::MIN..=i8::MAX {
            for set in [true, false] {
                start.inputs[4].frequency_alarm = set;
                let (mut one, mut other) = (start.clone(), start.clone());
                accept(&mut one, old(5, byte));
                accept(&mut other, finer(5, 32 * i16::from(byte)));
                assert_eq!(one, other, "{} from {}", byte, set);
            }
        }
    }
}

/// Each byte under each two limits does what it did in the old step.
#[test]
fn the_old_kind_is_judged_as_before() {
    for reject in 6..=127 {
        for qualification in 0..=reject - 6 {
            let mut units = with_limits(reject, qualification);
            for byte in i8::MIN..=i8::MAX {
                let expected = judged_before(byte, reject, qualification);
                let found = effect(&mut units, old(1, byte));
                assert_eq!(found, expected, "{} at {}, {}", byte, reject, qualification);
            }
        }
    }
}

/// Both kinds judge the same alarm, one after the other.
#[test]
fn both_kinds_in_turn() {
    for sign in [1, -1] {
        let mut unit = Unit::fresh();
        for (event, alarm) in [
            (finer(1, sign * 801), true),
            (old(1, 26), true),
            (finer(1, sign * 800), false),
            (old(1, 31), false),
            (finer(1, sign * 992), false),
            (finer(1, sign * 993), true),
            (old(1, 31), true),
            (old(1, 25), false),
            (finer(1, sign * 1_023), true),
            (finer(1, sign), false),
            (old(1, -128), true),
            (finer(1, sign * 799), false),
            (old(1, 32), true),
        ] {
            accept(&mut unit, event);
            assert_eq!(unit.input(1).frequency_alarm, alarm, "{:?}", event);
        }
    }
}

/// The other inputs, the soak and all else are left to the next tick.
#[test]
fn a_finer_measurement_changes_its_frequency_alarm_alone() {
    for input in 1..=8 {
        let mut unit = automatic(&[1, 2, 3, 4, 5, 6, 7, 8]);
        lock_ticks(&mut unit, 40, 5);
        for (offset, alarm) in [(993, true), (-800, false), (i16::MIN, true)] {
            let mut expected = unit.clone();
            expected.inputs[usize::from(input) - 1].frequency_alarm = alarm;
            accept(&mut unit, finer(input, offset));
            assert_eq!(unit, expected);
        }
        assert_eq!(byte(&unit, 0x46), 0xff);
        lock_ticks(&mut unit, 1, 5);
        assert_eq!(byte(&unit, 0x46), 0xff & !(1 << (input - 1)));
    }
}

/// The events of a sheet with kind 4, as bytes and as records.
#[test]
fn a_sheet_of_kind_4() {
    for (offset, bytes, selected) in [
        (800, [0x20, 0x03, 0x00, 0x00], 0x21),
        (801, [0x21, 0x03, 0x00, 0x00], 0x00),
        (-800, [0xe0, 0xfc, 0xff, 0xff], 0x21),
        (-801, [0xdf, 0xfc, 0xff, 0xff], 0x00),
        (i16::MAX, [0xff, 0x7f, 0x00, 0x00], 0x00),
        (i16::MIN, [0x00, 0x80, 0xff, 0xff], 0x00),
    ] {
        let mut events = vec![finer(1, offset)];
        events.extend([CLEAN_TICK; 79]);
        let sheet = sheet_of(&[(0x40, 1)], &events);
        assert_eq!(sheet[6..14], [&[4, 1, 0, 0][..], &bytes].concat());
        let records = records_of_both(&sheet).expect("a sheet that runs");
        assert_eq!(records[79][1], 0x00);
        assert_eq!(records[80][..2], [0, selected], "{}", offset);
    }
}

const CLEAN_TICK: Event = Event::Tick {
    mask: 0,
    lock: false,
    sample: 0,
};

/// The records of a sheet, or the number that refuses it; plain and tuned are
/// the same.
fn records_of_both(sheet: &[u8]) -> Result<Vec<Record>, u8> {
    let plain = records(sheet).map_err(|refusal| refusal.number());
    let mut output = vec![0; 40_000];
    let length = fast::run(sheet, &mut output);
    let number = fast::check(sheet, output.len());
    match &plain {
        Ok(records) => assert_eq!((number, &output[..length]), (0, &records.concat()[..])),
        Err(refusal) => assert_eq!((number, length), (*refusal, 0)),
    }
    plain
}

/// The sheet of one event of these bytes.
fn sheet_of_bytes(kind: u8, a: u8, b: u8, byte_3: u8, word: i32) -> Vec<u8> {
    [&[0, 0, 1, 0, kind, a, b, byte_3][..], &word.to_le_bytes()].concat()
}

/// Units in which fields are tried: fresh, Locked with a history, in Holdover.
fn units() -> [Unit; 3] {
    [Unit::fresh(), with_blocks(43), holdover()]
}

/// Fields that are no event: refused with 12 whatever the unit's state, which is
/// left, and in a sheet.
fn no_events(fields: impl IntoIterator<Item = (u8, u8, u8, i32)>) {
    let mut units = units().map(|unit| (unit.clone(), unit));
    for (kind, a, b, word) in fields {
        let shown = (kind, a, b, word);
        assert_eq!(Event::from_fields(kind, a, b, word), None, "{:?}", shown);
        for (unit, before) in &mut units {
            assert_eq!(unit.event_fields(kind, a, b, word), 12, "{:?}", shown);
            assert_eq!(unit, before, "{:?} changes the state", shown);
        }
        let sheet = sheet_of_bytes(kind, a, b, 0, word);
        assert_eq!(records_of_both(&sheet), Err(12), "{:?}", shown);
    }
}

/// "a word outside −32,768 to 32,767 gives 12": before the 6 of an input that
/// there is not.
#[test]
fn a_word_out_of_16_bits_is_no_event() {
    let words = [
        32_768,
        32_769,
        65_535,
        65_536,
        65_536 + 800,
        i32::MAX,
        -32_769,
        -32_770,
        -65_535,
        -65_536,
        i32::MIN,
    ];
    for input in [1, 8, 0, 9, 255] {
        no_events(words.map(|word| (4, input, 0, word)));
    }
}

/// "Sheet kind 4 has the input in a, b 0": any other b gives 12, before 6 too.
#[test]
fn a_b_that_is_not_0_is_no_event() {
    for input in [1, 8, 0, 9] {
        for word in [0, 800, -1, -32_768, 32_767, 32_768] {
            no_events((1..=255).map(|b| (4, input, b, word)));
        }
    }
}

/// "12, which covers kinds over 4 from now on"
#[test]
fn a_kind_over_4_is_no_event() {
    for (a, b, word) in [(1, 0, 800), (9, 0, 0), (0, 0, 0), (1, 1, 0)] {
        no_events((5..=255).map(|kind| (kind, a, b, word)));
    }
}

/// The byte between b and the word is 0 in kind 4 too.
#[test]
fn a_byte_3_that_is_not_0_is_no_event() {
    for byte_3 in 1..=255 {
        for (input, word) in [(1, 0), (8, -32_768), (9, 0)] {
            let sheet = sheet_of_bytes(4, input, 0, byte_3, word);
            assert_eq!(records_of_both(&sheet), Err(12), "{}", byte_3);
        }
    }
    assert!(records_of_both(&sheet_of_bytes(4, 1, 0, 0, 0)).is_ok());
}

/// "input not 1 to 8": 6 where the other fields are good, which is no fault of
/// the sheet.
#[test]
fn an_input_that_is_not_gives_6() {
    for mut unit in units() {
        for input in (9..=255).chain([0]) {
            for offset in [0, 800, 993, i16::MAX, i16::MIN] {
                refuse(&mut unit, finer(input, offset), 6);
            }
        }
    }
    for input in [0, 9, 255] {
        let mut tuned = fast::Unit::fresh();
        assert_eq!(tuned.event(&finer(input, 0)), 6);
        assert_eq!(tuned, fast::Unit::fresh());
        let sheet = sheet_of_bytes(4, input, 0, 0, -1);
        assert_eq!(records_of_both(&sheet), Ok(vec![[6, 0, 0, 3]]));
    }
}

/// Every offset survives the way to its fields and back.
#[test]
fn fields_carry_each_finer_measurement() {
    for offset in i16::MIN..=i16::MAX {
        for input in [0, 1, 8, 255] {
            let event = finer(input, offset);
            let fields = (4, input, 0, i32::from(offset));
            assert_eq!(event.to_fields(), fields);
            let (kind, a, b, word) = fields;
            assert_eq!(Event::from_fields(kind, a, b, word), Some(event));
        }
    }
}

/// Numbers without a pattern, the same each time.
fn numbers() -> impl Iterator<Item = u8> {
    let next = |number: &u32| Some(number.wrapping_mul(1_664_525).wrapping_add(1_013_904_223));
    std::iter::successors(Some(106), next).map(|number| (number >> 24) as u8)
}

/// Measurements of the old kind and other limits, some of them refused, each few
/// followed by a soak.
fn old_events(numbers: &mut impl Iterator<Item = u8>) -> Vec<Event> {
    let mut number = || numbers.next().expect("numbers without an end");
    let mut events = Vec::new();
    for _ in 0..60 {
        for _ in 0..4 {
            let (input, offset) = (number() % 10, number() as i8);
            let near = 25 + (offset & 7);
            events.extend([old(input, offset), old(number() % 10, near)]);
        }
        events.push(write_event(0x44 + number() % 2, number() % 128));
        events.extend([CLEAN_TICK; 80]);
    }
    events
}

/// "sheets without kind 4 give the same records or refusal": the records of a
/// unit whose frequency alarms follow the rule in the old step.
#[test]
fn sheets_without_kind_4_give_the_same_records() {
    let mut numbers = numbers();
    for _ in 0..20 {
        let events = old_events(&mut numbers);
        let mut unit = Unit::fresh();
        let expected = events.iter().map(|event| {
            let refusal = take_as_before(&mut unit, event);
            let bytes = [0x48, 0x46, 0x49].map(|address| byte(&unit, address));
            [refusal, bytes[0], bytes[1], bytes[2]]
        });
        let expected: Vec<Record> = expected.collect();
        assert_eq!(records_of_both(&sheet_of(&[], &events)), Ok(expected));
    }
}

/// An event whose measurements are judged in the old step.
fn take_as_before(unit: &mut Unit, event: &Event) -> u8 {
    let (input, offset) = match *event {
        Event::Measurement { input, offset } => (input, offset),
        _ => return unit.event(event),
    };
    let settings = unit.settings;
    let alarm = match input {
        1..=8 => &mut unit.inputs[usize::from(input) - 1].frequency_alarm,
        _ => return 6,
    };
    match judged_before(offset, settings.reject, settings.qualification) {
        Sets => *alarm = true,
        Clears => *alarm = false,
        Keeps => {}
    }
    0
}
