//! A shorter sheet with a difference: settings and events are left out as long
//! as the difference stays.

use model::{BYTES_PER_COUNT, BYTES_PER_EVENT, BYTES_PER_SETTING};
use shared::leave_out::{leave_out, Budget};

/// The settings and events tried in all, after which the sheet is taken as it
/// is.
const PARTS_AT_MOST: usize = 10_000_000;

/// A short sheet that differs as the given one does. A sheet whose counts do
/// not agree with its length is taken as it is.
pub fn shorten(sheet: &[u8], differs: impl Fn(&[u8]) -> bool) -> Vec<u8> {
    let (mut settings, mut events) = match parts(sheet) {
        Some(parts) => parts,
        None => return sheet.to_vec(),
    };
    let mut budget = Budget(PARTS_AT_MOST);
    leave_out(&mut events, &mut budget, |fewer| {
        differs(&joined(&settings, fewer))
    });
    leave_out(&mut settings, &mut budget, |fewer| {
        differs(&joined(fewer, &events))
    });
    joined(&settings, &events)
}

type Parts = Vec<Vec<u8>>;

/// The bytes of each setting and of each event.
fn parts(sheet: &[u8]) -> Option<(Parts, Parts)> {
    let count_at = |place: usize| {
        let bytes = sheet.get(place..place + BYTES_PER_COUNT)?;
        Some(usize::from(u16::from_le_bytes([bytes[0], bytes[1]])))
    };
    let end = BYTES_PER_COUNT + BYTES_PER_SETTING * count_at(0)?;
    let start = end + BYTES_PER_COUNT;
    if sheet.len() != start + BYTES_PER_EVENT * count_at(end)? {
        return None;
    }
    let cut = |part: &[u8], bytes: usize| part.chunks(bytes).map(<[u8]>::to_vec).collect();
    let settings = cut(&sheet[BYTES_PER_COUNT..end], BYTES_PER_SETTING);
    Some((settings, cut(&sheet[start..], BYTES_PER_EVENT)))
}

fn joined(settings: &[Vec<u8>], events: &[Vec<u8>]) -> Vec<u8> {
    let count = |parts: &[Vec<u8>]| (parts.len() as u16).to_le_bytes().to_vec();
    let sections = [
        count(settings),
        settings.concat(),
        count(events),
        events.concat(),
    ];
    sections.concat()
}
