//! One line of the text: a statement, or nothing.

use super::call::call;
use super::field::{
    fields, missing, shortened, Field, ADDRESS, COUNT, INPUT, LOCK, MASK, OFFSET, OFFSET_IN_PPM,
    OFFSET_IN_STEPS, SAMPLE, VALUE,
};
use crate::event::Event;
use crate::fresh::TABLE;
use crate::sheet::Setting;
use crate::step::{Call, Step};
use controller::{HIT, MEASUREMENT, TICK, WRITE};

#[derive(Clone, Debug, PartialEq, Eq)]
pub enum Statement {
    Nothing,
    Table { values: Vec<u8> },
    Settings { count: usize, setting: Setting },
    Steps { count: usize, step: Step },
    Repeat { count: usize },
    End,
}

/// What the line says, or why it says nothing that can be understood. A `#`
/// starts a comment.
pub fn statement(line: &str) -> Result<Statement, String> {
    let words: Vec<&str> = words(line).collect();
    match words[..] {
        [] => Ok(Statement::Nothing),
        [TABLE, ref rest @ ..] => table(rest),
        ["repeat", ref rest @ ..] => {
            let [count] = fields("repeat", [COUNT], rest)?;
            let count = count as usize;
            Ok(Statement::Repeat { count })
        }
        ["end", ref rest @ ..] => fields("end", [], rest).map(|[]| Statement::End),
        [count, ref rest @ ..] if begins_a_number(count) => {
            let (word, rest) = after_count(count, rest)?;
            repeated(COUNT.read(count)? as usize, word, rest)
        }
        [word, ref rest @ ..] => repeated(1, word, rest),
    }
}

/// Whether the line has the word of a table or a call, be the statement whole
/// or not.
pub fn is_for_a_host(line: &str) -> bool {
    words(line).any(|word| word == TABLE || Call::WORDS.contains(&word))
}

fn words(line: &str) -> impl Iterator<Item = &str> {
    let said = line.split('#').next().unwrap_or("");
    said.split_whitespace()
}

fn begins_a_number(word: &str) -> bool {
    word.starts_with(|first: char| first == '-' || first.is_ascii_digit())
}

/// The word that a count stands in front of, and what follows it.
fn after_count<'a>(count: &str, rest: &'a [&'a str]) -> Result<(&'a str, &'a [&'a str]), String> {
    match rest {
        ["x", word @ (TABLE | "repeat" | "end"), ..] => {
            Err(format!("{} takes no count in front", word))
        }
        ["x", word, rest @ ..] => Ok((word, rest)),
        ["x"] => Err("a statement is missing after the count".to_string()),
        _ => Err(format!(
            "after the count {} an x is missing, as in 79 x tick 0x00 0 0",
            shortened(count)
        )),
    }
}

/// Values of the table: one or more.
fn table(words: &[&str]) -> Result<Statement, String> {
    if words.is_empty() {
        return Err(missing(TABLE, &VALUE));
    }
    let values = words.iter().map(|word| VALUE.read(word));
    let values = values.map(|value| value.map(|value| value as u8));
    let values = values.collect::<Result<_, _>>()?;
    Ok(Statement::Table { values })
}

/// A setting, an event or a call, so many times.
fn repeated(count: usize, word: &str, rest: &[&str]) -> Result<Statement, String> {
    let event = match word {
        "setting" => {
            let [address, value] = fields(word, [ADDRESS, VALUE], rest)?;
            let setting = (address as u8, value as u8);
            return Ok(Statement::Settings { count, setting });
        }
        "tick" => {
            let [mask, lock, sample] = fields(word, [MASK, LOCK, SAMPLE], rest)?;
            let word = sample as i32;
            Event {
                word,
                ..Event::short(TICK, mask as u8, lock as u8)
            }
        }
        "measurement" => measurement(word, rest)?,
        "hit" => {
            let [] = fields(word, [], rest)?;
            Event::short(HIT, 0, 0)
        }
        "write" => {
            let [address, value] = fields(word, [ADDRESS, VALUE], rest)?;
            Event::short(WRITE, address as u8, value as u8)
        }
        _ => {
            let call = call(word, rest)?.ok_or_else(|| unknown(word))?;
            let step = Step::Call(call);
            return Ok(Statement::Steps { count, step });
        }
    };
    let step = Step::Event(event);
    Ok(Statement::Steps { count, step })
}

/// A measurement in 0.5 ppm; a finer one, if the offset has a unit behind it.
fn measurement(word: &str, rest: &[&str]) -> Result<Event, String> {
    if let Some(unit) = rest.get(2) {
        let numbers = [&rest[..2], &rest[3..]].concat();
        let [input, offset] = fields(word, [INPUT, offset_in(unit)?], &numbers)?;
        return Ok(Event::finer_measurement(input as u8, offset as i16));
    }
    let [input, offset] = fields(word, [INPUT, OFFSET], rest)?;
    Ok(Event::short(MEASUREMENT, input as u8, offset as u8))
}

/// The field of an offset with this unit.
fn offset_in(unit: &str) -> Result<Field, String> {
    match unit {
        "ppm" => Ok(OFFSET_IN_PPM),
        "steps" => Ok(OFFSET_IN_STEPS),
        _ => Err(format!(
            "after OFFSET may stand ppm or steps, not \"{}\"",
            shortened(unit)
        )),
    }
}

fn unknown(word: &str) -> String {
    format!(
        "unknown word \"{}\"; a statement is table, setting, tick, measurement, hit, write, \
         bucket, assign, week, windows, repeat or end",
        shortened(word)
    )
}
