//! From the sheet to the text: `show`. What it writes, `make` turns into the
//! same sheet.

use crate::event::Event;
use crate::number::ppm;
use crate::registers;
use crate::sheet::{Setting, Sheet};
use controller::{FINER_MEASUREMENT, HIT, MEASUREMENT, TICK};
use shared::runs::runs;

pub fn show(sheet: &Sheet) -> String {
    let setting = |&(address, value): &Setting| assignment("setting", address, value);
    let settings: Vec<_> = sheet.settings.iter().map(setting).collect();
    let events: Vec<_> = sheet.events.iter().map(statement).collect();
    section("settings (writes on a fresh unit)", &settings) + "\n" + &section("events", &events)
}

/// A comment that says what the section is, and its statements, equal ones that
/// follow each other with a count.
fn section(title: &str, statements: &[String]) -> String {
    let mut text = format!("# {}: {}\n", title, statements.len());
    for run in runs(statements, |one, other| one == other) {
        if run.count() > 1 {
            text += &format!("{} x ", run.count());
        }
        text += &statements[run.first];
        text.push('\n');
    }
    text
}

fn statement(event: &Event) -> String {
    let &Event { kind, a, b, word } = event;
    match kind {
        TICK => format!("tick {:#04x} {} {}", a, b, word),
        MEASUREMENT => format!("measurement {} {}", a, b as i8),
        FINER_MEASUREMENT => format!("measurement {} {} ppm", a, ppm(i64::from(word))),
        HIT => "hit".to_string(),
        _ => assignment("write", a, b),
    }
}

/// A setting or a write. A value of bits is hexadecimal, any other decimal.
fn assignment(word: &str, address: u8, value: u8) -> String {
    let address_text = match registers::name(address) {
        Some(name) => name.to_string(),
        None => format!("{:#04x}", address),
    };
    match address {
        0x1c..=0x24 | 0x42 => format!("{} {} {:#04x}", word, address_text, value),
        _ => format!("{} {} {}", word, address_text, value),
    }
}
