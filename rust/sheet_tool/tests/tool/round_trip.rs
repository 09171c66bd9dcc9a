//! `make` of what `show` gives is the same sheet, byte for byte.

use crate::random::sheet;
use crate::same_records;
use controller::{HIT, MEASUREMENT, TICK, WRITE};
use shared::random::Random;
use sheet_tool::event::Event;
use sheet_tool::make::make;
use sheet_tool::sheet::Sheet;
use sheet_tool::show::show;

pub fn check(bytes: &[u8]) {
    let sheet = Sheet::from_bytes(bytes).expect("a sheet that is not refused");
    assert_eq!(sheet.to_bytes(), bytes);
    let text = show(&sheet);
    let again = make(text.as_bytes()).unwrap_or_else(|fault| panic!("{:?} in\n{}", fault, text));
    assert!(again.to_bytes() == bytes, "not the same sheet:\n{}", text);
}

#[test]
fn random_sheets() {
    let mut random = Random::new(1);
    for _ in 0..3_000 {
        let settings = random.below(20) as usize;
        let events = random.below(60) as usize;
        check(&sheet(&mut random, settings, events).to_bytes());
    }
}

#[test]
fn none_and_the_most() {
    let mut random = Random::new(2);
    for (settings, events) in [(0, 0), (0, 1), (256, 0), (256, 8_127), (0, 8_191)] {
        check(&sheet(&mut random, settings, events).to_bytes());
    }
    let longest = sheet(&mut random, 0, 8_191).to_bytes();
    assert_eq!(longest.len(), 65_532);
    let full = sheet(&mut random, 256, 8_127).to_bytes();
    assert_eq!(full.len(), 65_532);
}

#[test]
fn every_setting_and_every_offset() {
    let mut sheet = Sheet::default();
    for byte in 0..=255 {
        sheet.settings.push((byte, byte));
        sheet.events.push(Event::short(TICK, byte, 1));
        sheet.events.push(Event::short(MEASUREMENT, byte, byte));
        sheet.events.push(Event::short(HIT, 0, 0));
        sheet.events.push(Event::short(WRITE, byte, 255 - byte));
    }
    check(&sheet.to_bytes());
}

#[test]
fn every_finer_offset() {
    let measurement = |offset| Event::finer_measurement(offset as u8, offset);
    let events: Vec<_> = (i16::MIN..=i16::MAX).map(measurement).collect();
    for events in events.chunks(8_000) {
        let (settings, events) = (vec![], events.to_vec());
        check(&Sheet { settings, events }.to_bytes());
    }
}

/// The text of a small sheet, word for word.
#[test]
fn the_text_of_a_sheet() {
    let text = "\
# settings (writes on a fresh unit): 3
2 x setting control 1
setting 0x50 255

# events: 13
3 x tick 0x81 1 -7
measurement 9 -128
measurement 9 -0.015625 ppm
2 x measurement 3 0.484375 ppm
measurement 8 0 ppm
measurement 1 100 ppm
hit
write input-8 0x0f
write mask 0x00
write delay 12
";
    let sheet = make(text.as_bytes()).expect("a sheet");
    assert_eq!(show(&sheet), text);
    let nothing = "# settings (writes on a fresh unit): 0\n\n# events: 0\n";
    assert_eq!(show(&Sheet::default()), nothing);
}

#[test]
fn records_of_random_sheets() {
    let mut random = Random::new(3);
    for _ in 0..200 {
        let events = random.below(400) as usize;
        same_records::check(&sheet(&mut random, 10, events));
    }
}
