//! Run sheets: what a sheet holds, which sheets are turned down, and the
//! records that the others give.

use crate::event::Event;
use crate::refusal::Refusal;
use crate::unit::Unit;
use std::fmt::Write;

/// "sheet over 65,535 bytes" is refused.
pub const LONGEST_SHEET: usize = 65_535;
/// "a settings count over 256" is refused.
pub const MOST_SETTINGS: usize = 256;
/// "settings (address, value)"
pub const BYTES_PER_SETTING: usize = 2;
/// "8-byte events"
pub const BYTES_PER_EVENT: usize = 8;
/// "Each gives a 4-byte record"
pub const BYTES_PER_RECORD: usize = 4;

/// "16-bit count"
pub const BYTES_PER_COUNT: usize = 2;

/// "a 4-byte record: refusal or 0, then 0x48, 0x46, 0x49"
pub type Record = [u8; BYTES_PER_RECORD];

/// "Checking a sheet against an output's length returns its number, 0 if it
/// will run"
pub fn check(sheet: &[u8], output_len: usize) -> u8 {
    match events_with_room(sheet, output_len) {
        Ok(_) => 0,
        Err(refusal) => refusal.number(),
    }
}

/// "running it hands back the written front part of the lent output, empty
/// when refused, and bytes after it are unchanged": how many bytes it wrote.
pub fn run(sheet: &[u8], output: &mut [u8]) -> usize {
    match events_with_room(sheet, output.len()) {
        Ok(events) => {
            let bytes = records_of(&events).concat();
            write_front(output, &bytes);
            bytes.len()
        }
        Err(_) => 0,
    }
}

/// Writes the front part of an output that has room for it.
pub(crate) fn write_front(output: &mut [u8], bytes: &[u8]) {
    output[..bytes.len()].copy_from_slice(bytes);
}

/// The records of a sheet whose output has room for them.
pub fn records(sheet: &[u8]) -> Result<Vec<Record>, Refusal> {
    Ok(records_of(&events(sheet)?))
}

/// What the rack program prints for a sheet. "It prints `records N`, then per
/// record the index from 0 and refusal in decimal and three two-digit
/// hexadecimal bytes, lower-case, one blank between fields; or `refused N`.
/// Each line ends with a line feed."
///
/// Reading: the program's own output has room for every sheet that is not
/// refused, so it never prints `refused 13`.
pub fn printed(sheet: &[u8]) -> String {
    let records = match records(sheet) {
        Ok(records) => records,
        Err(refusal) => return format!("refused {}\n", refusal.number()),
    };
    let mut text = format!("records {}\n", records.len());
    for (index, [refusal, state, qualified, flags]) in records.iter().enumerate() {
        let bytes = format_args!("{:02x} {:02x} {:02x}", state, qualified, flags);
        writeln!(text, "{} {} {}", index, refusal, bytes).expect("a String takes every text");
    }
    text
}

/// The sheet of these settings (address, value) and events. There must not be
/// more of either than a count can hold.
pub fn sheet_of(settings: &[(u8, u8)], events: &[Event]) -> Vec<u8> {
    let count = |count: usize| u16::try_from(count).expect("a 16-bit count").to_le_bytes();
    let mut sheet = count(settings.len()).to_vec();
    for &(address, value) in settings {
        sheet.extend([address, value]);
    }
    sheet.extend(count(events.len()));
    for event in events {
        let (kind, a, b, word) = event.to_fields();
        sheet.extend([kind, a, b, 0]);
        sheet.extend(word.to_le_bytes());
    }
    sheet
}

/// "Settings run as writes on a fresh unit, then the events. Each gives a
/// 4-byte record"
pub(crate) fn records_of(events: &[Event]) -> Vec<Record> {
    let mut unit = Unit::fresh();
    let record = |event| {
        let refusal = unit.event(event);
        let [state, qualified, flags] = [0x48, 0x46, 0x49].map(|address| unit.read(address).1);
        [refusal, state, qualified, flags]
    };
    events.iter().map(record).collect()
}

/// The settings and events of a sheet, or the first of 9 to 13 that holds:
/// "Checked in number order".
pub(crate) fn events_with_room(sheet: &[u8], output_len: usize) -> Result<Vec<Event>, Refusal> {
    let events = events(sheet)?;
    if output_len < BYTES_PER_RECORD * events.len() {
        return Err(Refusal::OutputTooShort);
    }
    Ok(events)
}

/// The settings as writes, then the events, or the first of 9 to 12 that
/// holds.
fn events(sheet: &[u8]) -> Result<Vec<Event>, Refusal> {
    let (settings, events) = sections(sheet)?;
    let settings = settings.chunks(BYTES_PER_SETTING).map(setting);
    let events = events.chunks(BYTES_PER_EVENT).map(event);
    let all: Option<_> = settings.chain(events).collect();
    all.ok_or(Refusal::NoEvent)
}

/// "Sections in this order: 16-bit count and that many settings (address,
/// value); 16-bit count and that many 8-byte events." The bytes of the
/// settings and of the events, or the first of 9 to 11 that holds.
pub(crate) fn sections(sheet: &[u8]) -> Result<(&[u8], &[u8]), Refusal> {
    let settings_count = count_at(sheet, 0);
    if sheet.len() > LONGEST_SHEET || settings_count > MOST_SETTINGS {
        return Err(Refusal::TooLarge);
    }
    let settings_start = BYTES_PER_COUNT;
    let settings_end = settings_start + BYTES_PER_SETTING * settings_count;
    let events_start = settings_end + BYTES_PER_COUNT;
    let events_end = events_start + BYTES_PER_EVENT * count_at(sheet, settings_end);
    if sheet.len() < events_end {
        return Err(Refusal::EndsEarly);
    }
    if sheet.len() > events_end {
        return Err(Refusal::BytesAfterEvents);
    }
    let settings = &sheet[settings_start..settings_end];
    Ok((settings, &sheet[events_start..events_end]))
}

/// The count at this place. "Counts low byte first."
///
/// Reading: a sheet that ends before or inside a count ends early; the bytes
/// it lacks are 0. So one byte ff is a settings count of 255 in a sheet that
/// ends early, and two are a count over 256, whose number comes first.
fn count_at(sheet: &[u8], place: usize) -> usize {
    let byte = |place| usize::from(sheet.get(place).copied().unwrap_or(0));
    byte(place) + 256 * byte(place + 1)
}

/// "Settings run as writes"
#[inline]
pub(crate) fn setting(bytes: &[u8]) -> Option<Event> {
    let (address, value) = (bytes[0], bytes[1]);
    Some(Event::Write { address, value })
}

/// "Event: kind, a, b, 0, 32-bit signed word low byte first." None if it is
/// no event; the 0 is one of the unused fields.
///
/// Reading: an input not 1 to 8 or a sample out of range is no fault of the
/// sheet; the event's record has 6 or 7.
///
/// Always compiled into its callers, and the word read from its four bytes at
/// once: the tuned model's speed hangs on both.
#[inline(always)]
pub(crate) fn event(bytes: &[u8]) -> Option<Event> {
    let word = i32::from_le_bytes(bytes[4..8].try_into().expect("four bytes"));
    match bytes[3] {
        0 => Event::from_fields(bytes[0], bytes[1], bytes[2], word),
        _ => None,
    }
}
