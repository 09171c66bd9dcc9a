//! The kinds of damage that a sheet can take, and the edges of the rules for
//! sheets: each with its name and with what it does to the bytes.

use crate::sheet::{length, Sheet};
use differ::draw;
use model::{Event, LONGEST_SHEET, MOST_SETTINGS};
use shared::random::Random;

type Work = Box<dyn Fn(&mut Random, &mut Sheet)>;
type SingleWork = fn(&mut Random, &mut Sheet);

pub struct Damage {
    pub name: String,
    work: Work,
    /// The number that such a sheet is answered with if the output has room;
    /// none if it depends on the bytes.
    pub gives: Option<u8>,
}

impl Damage {
    /// Does it to a sheet that has a setting and an event at least.
    pub fn apply(&self, random: &mut Random, sheet: &mut Sheet) {
        (self.work)(random, sheet)
    }
}

/// All kinds of damage.
pub fn damages() -> Vec<Damage> {
    let mut list = Vec::new();
    list.extend(family(
        CUTS.iter().copied(),
        |(name, _)| format!("cut {}", name),
        |random, sheet, (_, length)| {
            let length = length(random, sheet);
            sheet.bytes.truncate(length);
        },
        |_| Some(10),
    ));
    list.extend(family(
        COUNTS,
        |count| format!("settings count changed to {}", count),
        |_, sheet, count| sheet.set_count(0, count),
        |count| (usize::from(count) > MOST_SETTINGS).then_some(9),
    ));
    list.extend(family(
        COUNTS,
        |count| format!("events count changed to {}", count),
        |_, sheet, count| sheet.set_count(sheet.events_count_place(), count),
        |count| match count {
            0 => Some(11),
            65_535 => Some(10),
            _ => None,
        },
    ));
    list.extend(family(
        [255, 256, 257],
        |settings| format!("{} settings", settings),
        |_, sheet, settings| *sheet = sheet.resized(settings, sheet.events.len()),
        |settings| Some(if settings > MOST_SETTINGS { 9 } else { 0 }),
    ));
    list.extend(family(
        LARGE,
        |(settings, events)| format!("{} settings and {} events", settings, events),
        |_, sheet, (settings, events)| *sheet = sheet.resized(settings, events),
        |(settings, events)| {
            let too_long = length(settings, events) > LONGEST_SHEET;
            Some(if too_long { 9 } else { 0 })
        },
    ));
    list.extend(family(
        [65_535, 65_536, 70_000, 200_000],
        |length| format!("lengthened to {} bytes", length),
        |random, sheet, length| {
            let filler = random.pick(&[0x00, 0xff]);
            sheet.bytes.resize(length, filler)
        },
        |length| Some(if length > LONGEST_SHEET { 9 } else { 11 }),
    ));
    list.extend(family(
        FIELDS.iter().copied(),
        |field| field.name.to_string(),
        |random, sheet, field| field.spoil(random, sheet),
        |_| Some(12),
    ));
    list.extend(family(
        WORDS,
        |word| format!("finer measurement with the word {}", word),
        |random, sheet, word| {
            let place = put_event(random, sheet, 4) + 4;
            sheet.bytes[place..place + 4].copy_from_slice(&word.to_le_bytes());
        },
        |word| Some(if i16::try_from(word).is_ok() { 0 } else { 12 }),
    ));
    list.extend(family(
        SINGLE_DAMAGES.iter().copied(),
        |(name, _, _)| name.to_string(),
        |random, sheet, (_, _, work)| work(random, sheet),
        |(_, gives, _)| gives,
    ));
    list
}

/// Like kinds of damage: one for each member, with its name, its work and the
/// number it gives.
fn family<T: Copy + 'static>(
    members: impl IntoIterator<Item = T>,
    name: fn(T) -> String,
    work: fn(&mut Random, &mut Sheet, T),
    gives: fn(T) -> Option<u8>,
) -> Vec<Damage> {
    let damage = |member| Damage {
        name: name(member),
        work: Box::new(move |random, sheet| work(random, sheet, member)),
        gives: gives(member),
    };
    members.into_iter().map(damage).collect()
}

/// Where a sheet is cut.
type Cut = fn(&mut Random, &Sheet) -> usize;

const CUTS: &[(&str, Cut)] = &[
    ("to nothing", |_, _| 0),
    ("inside the settings count", |_, _| 1),
    ("before a setting", |random, sheet| {
        sheet.setting_place(sheet.any_setting(random))
    }),
    ("inside a setting", |random, sheet| {
        sheet.setting_place(sheet.any_setting(random)) + 1
    }),
    ("before the events count", |_, s| s.events_count_place()),
    ("inside the events count", |_, s| s.events_count_place() + 1),
    ("before the first event", |_, s| s.event_place(0)),
    ("before an event", |random, sheet| {
        sheet.event_place(sheet.any_event(random))
    }),
    ("inside an event", |random, sheet| {
        sheet.event_place(sheet.any_event(random)) + random.between(1, 7) as usize
    }),
    ("by one byte", |_, sheet| sheet.bytes.len() - 1),
];

/// The counts that a damaged sheet says it has.
const COUNTS: [u16; 5] = [0, 255, 256, 257, 65_535];

/// Settings and events of the largest sheets that run, by bytes, by events and
/// by records; then of some that are too large by a little or by much.
const LARGE: [(usize, usize); 6] = [
    (1, 8_191),
    (0, 8_191),
    (256, 8_127),
    (2, 8_191),
    (0, 8_192),
    (0, 24_999),
];

/// Words of a finer measurement: the least and the largest, and some beyond.
const WORDS: [i32; 8] = [
    32_767,
    -32_768,
    32_768,
    -32_769,
    65_535,
    -65_536,
    i32::MAX,
    i32::MIN,
];

/// A byte of an event that makes it no event.
#[derive(Clone, Copy)]
struct Field {
    name: &'static str,
    /// The event's kind; none for any.
    kind: Option<u8>,
    byte: usize,
    /// The least value that is a fault.
    least: u8,
}

const fn field(name: &'static str, kind: Option<u8>, byte: usize, least: u8) -> Field {
    Field {
        name,
        kind,
        byte,
        least,
    }
}

const FIELDS: &[Field] = &[
    field("kind over 4", None, 0, 5),
    field("lock over 1", Some(0), 2, 2),
    field("a of a Hit not 0", Some(2), 1, 1),
    field("b of a Hit not 0", Some(2), 2, 1),
    field("byte 3 of a tick not 0", Some(0), 3, 1),
    field("byte 3 of a measurement not 0", Some(1), 3, 1),
    field("byte 3 of a Hit not 0", Some(2), 3, 1),
    field("byte 3 of a write not 0", Some(3), 3, 1),
    field("word of a measurement over 0", Some(1), 4, 1),
    field("word of a measurement under 0", Some(1), 7, 128),
    field("word of a Hit over 255", Some(2), 5, 1),
    field("word of a Hit under 0", Some(2), 7, 128),
    field("word of a write over 65,535", Some(3), 6, 1),
    field("word of a write over 0", Some(3), 4, 1),
    field("kind of a finer measurement over 4", Some(4), 0, 5),
    field("b of a finer measurement not 0", Some(4), 2, 1),
    field("byte 3 of a finer measurement not 0", Some(4), 3, 1),
];

impl Field {
    fn spoil(&self, random: &mut Random, sheet: &mut Sheet) {
        let place = match self.kind {
            Some(kind) => put_event(random, sheet, kind),
            None => sheet.event_place(sheet.any_event(random)),
        };
        let any = random.between(u32::from(self.least), 255) as u8;
        sheet.bytes[place + self.byte] = random.pick(&[self.least, any, 255]);
    }
}

/// Puts an event of this kind in the place of any: where it begins.
fn put_event(random: &mut Random, sheet: &mut Sheet, kind: u8) -> usize {
    let index = sheet.any_event(random);
    sheet.events[index] = event_of_kind(random, kind);
    *sheet = Sheet::of(sheet.settings.clone(), sheet.events.clone());
    sheet.event_place(index)
}

fn event_of_kind(random: &mut Random, kind: u8) -> Event {
    let address = draw::any_address(random);
    let value = random.byte();
    match kind {
        0 => draw::out_of_range_tick(random),
        1 => Event::Measurement {
            input: value % 10,
            offset: value as i8,
        },
        2 => Event::Hit,
        3 => Event::Write { address, value },
        _ => Event::FinerMeasurement {
            input: value % 10,
            offset: random.word() as i16,
        },
    }
}

/// The kinds of damage that are not one of a family, with the number they
/// give.
const SINGLE_DAMAGES: &[(&str, Option<u8>, SingleWork)] = &[
    ("lengthened by one byte", Some(11), |random, sheet| {
        add_bytes(random, sheet, 1)
    }),
    ("lengthened by some bytes", Some(11), |random, sheet| {
        let count = random.between(2, 30);
        add_bytes(random, sheet, count)
    }),
    ("lengthened by a clean tick", Some(11), |_, sheet| {
        sheet.bytes.extend([0; 8])
    }),
    ("other word in a tick", Some(0), |random, sheet| {
        sheet.events[0] = Event::Tick {
            mask: random.byte(),
            lock: random.one_in(2),
            sample: random.word() as i32,
        };
        *sheet = sheet.resized(sheet.settings.len(), sheet.events.len());
    }),
    ("other bytes in a setting", Some(0), |random, sheet| {
        let place = sheet.setting_place(sheet.any_setting(random));
        sheet.bytes[place..place + 2].fill_with(|| random.byte());
    }),
    ("one byte alone", Some(10), |random, sheet| {
        let any = random.byte();
        sheet.bytes = vec![random.pick(&[0x00, 0x01, 0xff, any])]
    }),
    ("ff ff alone", Some(9), |_, sheet| {
        sheet.bytes = vec![0xff, 0xff]
    }),
    ("no settings and no events", Some(0), |_, sheet| {
        *sheet = sheet.resized(0, 0)
    }),
    ("9 and 10 at once", Some(9), |random, sheet| {
        sheet.set_count(0, random.between(257, 65_535) as u16);
        let length = random.between(2, 20) as usize;
        sheet.bytes.truncate(length);
    }),
    ("9 and 12 at once", Some(9), |random, sheet| {
        FIELDS[0].spoil(random, sheet);
        sheet.bytes.resize(LONGEST_SHEET + 1, 0);
    }),
    ("10 and 12 at once", Some(10), |random, sheet| {
        *sheet = sheet.resized(sheet.settings.len(), sheet.events.len() + 1);
        let place = sheet.event_place(0);
        sheet.bytes[place] = random.between(5, 255) as u8;
        sheet.bytes.truncate(sheet.bytes.len() - 1);
    }),
    ("11 and 12 at once", Some(11), |random, sheet| {
        FIELDS[0].spoil(random, sheet);
        add_bytes(random, sheet, 1);
    }),
    ("one byte changed", None, |random, sheet| {
        change_bytes(random, sheet, 1)
    }),
    ("some bytes changed", None, |random, sheet| {
        let count = random.between(2, 20);
        change_bytes(random, sheet, count)
    }),
    ("random bytes after small counts", None, |random, sheet| {
        let settings = random.below(4) as usize;
        *sheet = sheet.resized(settings, 0);
        let place = sheet.events_count_place();
        sheet.set_count(place, random.below(4) as u16);
        let count = random.below(40);
        add_bytes(random, sheet, count)
    }),
];

fn add_bytes(random: &mut Random, sheet: &mut Sheet, count: u32) {
    sheet.bytes.extend((0..count).map(|_| random.byte()));
}

fn change_bytes(random: &mut Random, sheet: &mut Sheet, count: u32) {
    for _ in 0..count {
        let place = random.below(sheet.bytes.len() as u32) as usize;
        let bit = 1 << random.below(8);
        let other = sheet.bytes[place] ^ bit;
        let any = random.byte();
        sheet.bytes[place] = random.pick(&[other, any]);
    }
}
