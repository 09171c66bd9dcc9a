//! Run sheets: the example with its printed text, each refusal of a sheet and
//! their order, the largest sheets, and what is left of the lent output.

use crate::bench::*;
use model::{check, printed, records, run, sheet_of, Event, Record, Unit};

const CLEAN_TICK: Event = Event::Tick {
    mask: 0,
    lock: false,
    sample: 0,
};
/// What the bytes of a lent output are before.
const BEFORE: u8 = 0xa5;
const ROOM: usize = 65_536;

/// A sheet of so many settings and clean ticks.
fn sheet_of_counts(settings: usize, ticks: usize) -> Vec<u8> {
    sheet_of(&vec![(0x43, 1); settings], &vec![CLEAN_TICK; ticks])
}

/// The sheet with the settings count, or the events count at this place,
/// replaced.
fn with_count(sheet: &[u8], place: usize, count: u16) -> Vec<u8> {
    let mut sheet = sheet.to_vec();
    sheet[place..place + 2].copy_from_slice(&count.to_le_bytes());
    sheet
}

/// The sheet of one event of these eight bytes.
fn sheet_of_bytes(event: [u8; 8]) -> Vec<u8> {
    [&[0, 0, 1, 0][..], &event].concat()
}

/// The sheet is refused with this number, whatever it is asked, and nothing is
/// written.
fn refuse_sheet(sheet: &[u8], number: u8) {
    assert_eq!(check(sheet, ROOM), number);
    assert_eq!(
        records(sheet).map_err(|refusal| refusal.number()),
        Err(number)
    );
    assert_eq!(printed(sheet), format!("refused {}\n", number));
    nothing_written(sheet, ROOM);
}

fn nothing_written(sheet: &[u8], output_len: usize) {
    let mut output = vec![BEFORE; output_len];
    assert_eq!(run(sheet, &mut output), 0);
    assert!(output.iter().all(|&byte| byte == BEFORE));
}

/// The sheet runs and gives these records, with no byte of the output to spare
/// or with more; with one byte less it is refused.
fn give_records(sheet: &[u8], expected: &[Record]) {
    let length = 4 * expected.len();
    for spare in [0, 1, 4, 1_000] {
        let mut output = vec![BEFORE; length + spare];
        assert_eq!(check(sheet, output.len()), 0);
        assert_eq!(run(sheet, &mut output), length);
        assert_eq!(output[..length], expected.concat());
        assert_eq!(output[length..], vec![BEFORE; spare]);
    }
    if length > 0 {
        for short in [length - 1, 0] {
            assert_eq!(check(sheet, short), 13);
            nothing_written(sheet, short);
        }
    }
    assert_eq!(records(sheet), Ok(expected.to_vec()));
}

/// As many fresh records, of which none is refused.
fn fresh_records(count: usize) -> Vec<Record> {
    vec![[0, 0x00, 0x00, 0x03]; count]
}

#[test]
fn example_of_the_run_sheet() {
    let mut sheet = vec![0x01, 0x00, 0x40, 0x01, 0x02, 0x00];
    sheet.extend([0x00; 8]);
    sheet.push(0x02);
    sheet.extend([0x00; 7]);
    let text = "records 3\n0 0 00 00 03\n1 0 00 00 03\n2 5 00 00 03\n";
    assert_eq!(printed(&sheet), text);
    assert_eq!(sheet, sheet_of(&[(0x40, 1)], &[CLEAN_TICK, Event::Hit]));
    give_records(&sheet, &[[0, 0, 0, 3], [0, 0, 0, 3], [5, 0, 0, 3]]);
}

#[test]
fn an_empty_list_gives_no_record() {
    give_records(&[0, 0, 0, 0], &[]);
    assert_eq!(printed(&[0, 0, 0, 0]), "records 0\n");
}

/// The records are those of a unit that takes the settings as writes, then the
/// events.
#[test]
fn the_records_are_a_fresh_units() {
    let settings = [
        (0x40, 1),
        (0x1c, 0xf8),
        (0x00, 0),
        (0x48, 0),
        (0x44, 200),
        (0x44, 30),
    ];
    let mut events = vec![Event::Measurement {
        input: 8,
        offset: -1,
    }];
    events.extend([CLEAN_TICK; 80]);
    events.extend([Event::Hit, Event::Hit, write_event(0x26, 1)]);
    let mut unit = Unit::fresh();
    let writes = settings.map(|(address, value)| write_event(address, value));
    let all = writes.iter().chain(&events);
    let expected: Vec<Record> = all
        .map(|event| {
            let refusal = unit.event(event);
            [
                refusal,
                byte(&unit, 0x48),
                byte(&unit, 0x46),
                byte(&unit, 0x49),
            ]
        })
        .collect();
    give_records(&sheet_of(&settings, &events), &expected);
    let refusals: Vec<u8> = expected.iter().map(|record| record[0]).collect();
    assert_eq!(refusals[..6], [0, 0, 1, 2, 3, 4]);
    assert_eq!(refusals[87..], [0, 5, 8]);
    assert_eq!(expected[85], [0, 0x28, 0x80, 0x02]);
}

/// Decimal index and refusal, lower-case hexadecimal bytes of two digits.
#[test]
fn the_printed_fields() {
    let measured = [1, 2, 3, 4, 6, 8].map(|input| Event::Measurement { input, offset: 0 });
    let events = [&measured[..], &[CLEAN_TICK; 97]].concat();
    let settings = [(0x40, 1), (0x24, 0x10), (0x42, 0)];
    let text = printed(&sheet_of(&settings, &events));
    let lines: Vec<&str> = text.lines().collect();
    assert_eq!(lines[0], "records 106");
    assert_eq!(lines[1], "0 0 00 00 03");
    assert_eq!(lines[11], "10 0 09 00 03");
    assert_eq!(lines[88], "87 0 09 af 03");
    assert_eq!(text.matches('\n').count(), 107);
    assert!(text.ends_with("105 0 09 af 03\n"));
}

/// The event's word is signed, its low byte first; the mean of 43 blocks is
/// not in the records, but a sample out of range is.
#[test]
fn the_word_is_signed_and_low_byte_first() {
    let samples = [
        ([0x40, 0x59, 0x73, 0x07], 0),
        ([0x41, 0x59, 0x73, 0x07], 7),
        ([0xc0, 0xa6, 0x8c, 0xf8], 0),
        ([0xbf, 0xa6, 0x8c, 0xf8], 7),
        ([0x00, 0x00, 0x00, 0x80], 7),
        ([0xff, 0xff, 0xff, 0xff], 0),
    ];
    for ([b0, b1, b2, b3], refusal) in samples {
        let sheet = sheet_of_bytes([0, 0, 1, 0, b0, b1, b2, b3]);
        give_records(&sheet, &[[refusal, 0, 0, 3]]);
    }
}

/// An input or a sample that there is not is a fault of the event alone.
#[test]
fn a_refused_event_is_no_fault_of_the_sheet() {
    for input in [0, 9, 255] {
        give_records(
            &sheet_of_bytes([1, input, 0, 0, 0, 0, 0, 0]),
            &[[6, 0, 0, 3]],
        );
    }
    for (address, refusal) in [(0x00, 1), (0x4e, 2), (0x45, 3)] {
        let sheet = sheet_of(&[(address, 255)], &[write_event(address, 255)]);
        give_records(&sheet, &[[refusal, 0, 0, 3]; 2]);
    }
}

#[test]
fn number_9_a_settings_count_over_256() {
    for settings in [0, 255, 256] {
        give_records(&sheet_of_counts(settings, 2), &fresh_records(settings + 2));
    }
    refuse_sheet(&sheet_of_counts(257, 2), 9);
    refuse_sheet(&sheet_of_counts(65_535, 0), 9);
    // Also if the sheet ends early, or there are bytes after its events.
    for count in [257, 0x0200, 0xff00, 65_535] {
        refuse_sheet(&with_count(&[0, 0], 0, count), 9);
        refuse_sheet(&with_count(&sheet_of_counts(256, 9), 0, count), 9);
        refuse_sheet(&with_count(&vec![0xff; 60_000], 0, count), 9);
    }
}

#[test]
fn number_9_a_sheet_over_65_535_bytes() {
    // The largest sheets that run: by size, by events, by records.
    for (settings, ticks, bytes) in [(1, 8_191, 65_534), (0, 8_191, 65_532), (256, 8_127, 65_532)] {
        let mut sheet = sheet_of_counts(settings, ticks);
        assert_eq!(sheet.len(), bytes);
        give_records(&sheet, &fresh_records(settings + ticks));
        sheet.resize(65_535, 0);
        refuse_sheet(&sheet, 11);
        sheet.push(0);
        refuse_sheet(&sheet, 9);
    }
    for (settings, ticks) in [(2, 8_191), (0, 8_192), (0, 65_535)] {
        refuse_sheet(&sheet_of_counts(settings, ticks), 9);
    }
    for (length, number) in [(65_535, 11), (65_536, 9), (200_000, 9)] {
        refuse_sheet(&vec![0; length], number);
    }
    refuse_sheet(&with_count(&[0; 65_535], 2, 65_535), 10);
}

/// Wherever a sheet is cut, it ends early; also inside a count.
#[test]
fn number_10_a_sheet_that_ends_early() {
    let sheet = sheet_of(&[(0x40, 1), (0x43, 2)], &[CLEAN_TICK, Event::Hit]);
    for length in 0..sheet.len() {
        refuse_sheet(&sheet[..length], 10);
    }
    for byte in [0x00, 0x01, 0xff] {
        refuse_sheet(&[byte], 10);
        refuse_sheet(&[0, 0, byte], 10);
    }
    refuse_sheet(&[0x00, 0x01], 10);
    for count in [3, 255, 256, 257, 65_535] {
        refuse_sheet(&with_count(&sheet, 6, count), 10);
    }
    // 255 or 256 settings, which the rest of the sheet does not hold.
    for count in [255, 256] {
        refuse_sheet(&with_count(&sheet, 0, count), 10);
    }
}

#[test]
fn number_11_bytes_after_the_events() {
    let mut sheet = sheet_of(&[(0x40, 1)], &[CLEAN_TICK, Event::Hit]);
    for count in [0, 1] {
        refuse_sheet(&with_count(&sheet, 4, count), 11);
    }
    for _ in 0..10 {
        sheet.push(0);
        refuse_sheet(&sheet, 11);
    }
    refuse_sheet(&[0, 0, 0, 0, 0], 11);
}

#[test]
fn number_12_a_kind_a_lock_or_an_unused_field() {
    let faults = [
        [5, 0, 0, 0, 0, 0, 0, 0],
        [255, 0, 0, 0, 0, 0, 0, 0],
        [0, 0, 2, 0, 0, 0, 0, 0],
        [0, 0, 255, 0, 0, 0, 0, 0x80],
        [1, 1, 0, 0, 1, 0, 0, 0],
        [1, 0, 0, 0, 0, 0, 0, 0x80],
        [2, 1, 0, 0, 0, 0, 0, 0],
        [2, 0, 1, 0, 0, 0, 0, 0],
        [2, 0, 0, 0, 0, 1, 0, 0],
        [3, 0x40, 1, 0, 0, 0, 1, 0],
        [3, 0, 0, 0, 0, 0, 0, 1],
    ];
    for event in faults {
        refuse_sheet(&sheet_of_bytes(event), 12);
        // Also as the last of many.
        let mut sheet = sheet_of_counts(256, 1_000);
        let place = sheet.len() - 8;
        sheet[place..].copy_from_slice(&event);
        refuse_sheet(&sheet, 12);
    }
}

/// The byte between b and the word is unused in every kind.
#[test]
fn number_12_the_byte_after_b() {
    for kind in 0..=3 {
        for byte in 1..=255 {
            refuse_sheet(&sheet_of_bytes([kind, 0, 0, byte, 0, 0, 0, 0]), 12);
        }
        assert_eq!(check(&sheet_of_bytes([kind, 0, 0, 0, 0, 0, 0, 0]), 4), 0);
    }
}

#[test]
fn number_13_an_output_under_4_bytes_a_record() {
    for (settings, ticks) in [(1, 0), (0, 1), (3, 5), (256, 8_127)] {
        let sheet = sheet_of_counts(settings, ticks);
        let length = 4 * (settings + ticks);
        for short in [0, 1, length / 2, length - 4, length - 1] {
            assert_eq!(check(&sheet, short), 13);
            nothing_written(&sheet, short);
        }
        for enough in [length, length + 1, usize::MAX] {
            assert_eq!(check(&sheet, enough), 0);
        }
    }
}

/// "Checked in number order": of two faults the lower number is returned.
#[test]
fn the_lower_number_comes_first() {
    let good = sheet_of(&[(0x40, 1)], &[CLEAN_TICK, Event::Hit]);
    let mut bad_kind = good.clone();
    bad_kind[6] = 5;
    let longer = [&bad_kind[..], &[0]].concat();
    for (sheet, number) in [
        (&bad_kind[..], 12),
        (&longer, 11),
        (&bad_kind[..bad_kind.len() - 1], 10),
        (&with_count(&longer, 0, 257), 9),
        (&with_count(&bad_kind, 0, 257)[..3], 9),
    ] {
        // No output at all would be 13.
        assert_eq!(check(sheet, 0), number);
        refuse_sheet(sheet, number);
    }
    assert_eq!(check(&good, 11), 13);
    assert_eq!(check(&good, 12), 0);
}
