//! The fields of a statement: what each is called, and what fits in it.

use crate::number::{ppm, steps, whole};
use crate::registers;

/// How deep repeats may stand in each other.
pub const GROUP_DEPTH: usize = 8;
/// The largest count of a repeat.
pub const MOST_REPEATS: i64 = 65_535;

pub struct Field {
    pub name: &'static str,
    least: i64,
    most: i64,
    form: Form,
}

/// What may stand in a field.
enum Form {
    Number,
    /// A number or a register's name.
    Address,
    /// An offset in 0.5 ppm, where one in another unit may have been meant.
    Offset,
    /// An offset in steps of 1/64 ppm.
    Steps,
    /// A decimal number of ppm. It is read as steps of 1/64 ppm.
    Ppm,
    /// A number of ticks, where a time may have been meant.
    Place,
}

const fn field(name: &'static str, least: i64, most: i64) -> Field {
    Field {
        name,
        least,
        most,
        form: Form::Number,
    }
}

const fn offset(form: Form, least: i64, most: i64) -> Field {
    Field {
        form,
        ..field("OFFSET", least, most)
    }
}

const fn place(name: &'static str) -> Field {
    Field {
        form: Form::Place,
        ..field(name, 0, u32::MAX as i64)
    }
}

pub const ADDRESS: Field = Field {
    form: Form::Address,
    ..field("ADDRESS", 0, 255)
};
pub const VALUE: Field = field("VALUE", 0, 255);
pub const MASK: Field = field("MASK", 0, 255);
pub const LOCK: Field = field("LOCK", 0, 1);
pub const SAMPLE: Field = field("SAMPLE", i32::MIN as i64, i32::MAX as i64);
pub const INPUT: Field = field("INPUT", 0, 255);
pub const SET: Field = field("SET", 0, 255);
pub const SIZE: Field = field("SIZE", 0, 255);
pub const SET_LEVEL: Field = field("SET_LEVEL", 0, 255);
pub const CLEAR_LEVEL: Field = field("CLEAR_LEVEL", 0, 255);
pub const DECAY: Field = field("DECAY", 0, 255);
/// In 0.5 ppm.
pub const OFFSET: Field = offset(Form::Offset, i8::MIN as i64, i8::MAX as i64);
/// In steps of 1/64 ppm.
pub const OFFSET_IN_STEPS: Field = offset(Form::Steps, i16::MIN as i64, i16::MAX as i64);
pub const OFFSET_IN_PPM: Field = offset(Form::Ppm, i16::MIN as i64, i16::MAX as i64);
pub const PLACE: Field = place("PLACE");
pub const START: Field = place("START");
pub const END: Field = place("END");
pub const COUNT: Field = field("COUNT", 1, MOST_REPEATS);

/// Said of an offset that may have been meant in ppm.
const IN_PPM: &str = "; in ppm it is written as in measurement 3 0.484375 ppm";

/// What a place may be.
const A_PLACE: &str =
    "a number of ticks, a time such as 55:30, or a day and a time such as mon 07:30";

impl Field {
    /// The number that a word is in this field, or why it is none.
    pub fn read(&self, word: &str) -> Result<i64, String> {
        let (below, above) = self.next_to(word).ok_or_else(|| self.no_number(word))?;
        if below < self.least || above > self.most {
            return Err(self.out_of_range(word));
        }
        if below < above {
            return Err(between_steps(word, below, above));
        }
        Ok(below)
    }

    /// The field's numbers at or below a word's and at or above it.
    fn next_to(&self, word: &str) -> Option<(i64, i64)> {
        let number = match self.form {
            Form::Ppm => return steps(word),
            Form::Address => registers::address(word).map(i64::from),
            Form::Number | Form::Offset | Form::Steps | Form::Place => None,
        };
        let number = number.or_else(|| whole(word))?;
        Some((number, number))
    }

    fn no_number(&self, word: &str) -> String {
        let (what, hint) = match self.form {
            Form::Number => ("a number", ""),
            Form::Address => ("a number or a register's name", ""),
            Form::Offset | Form::Steps => ("a whole number", IN_PPM),
            Form::Ppm => ("a decimal number of ppm, such as -12.5", ""),
            Form::Place => (A_PLACE, ""),
        };
        format!(
            "{} is {}, not \"{}\"{}",
            self.name,
            what,
            shortened(word),
            hint
        )
    }

    fn out_of_range(&self, word: &str) -> String {
        let bounds = match self.form {
            Form::Ppm => format!("{} to {} ppm", ppm(self.least), ppm(self.most)),
            _ => format!("{} to {}", self.least, self.most),
        };
        let hint = match self.form {
            Form::Offset => ", unless ppm or steps follows it",
            _ => "",
        };
        format!(
            "{} is {}, not {}{}",
            self.name,
            bounds,
            shortened(word),
            hint
        )
    }
}

fn between_steps(word: &str, below: i64, above: i64) -> String {
    format!(
        "\"{}\" ppm is no whole number of steps of 1/64 ppm; {} and {} are",
        shortened(word),
        ppm(below),
        ppm(above)
    )
}

/// The numbers of a statement's fields, each within its width; no field may be
/// missing and nothing may follow.
pub fn fields<const N: usize>(
    statement: &str,
    fields: [Field; N],
    words: &[&str],
) -> Result<[i64; N], String> {
    let mut numbers = [0; N];
    for (index, field) in fields.iter().enumerate() {
        let word = words.get(index).ok_or_else(|| missing(statement, field))?;
        numbers[index] = field.read(word)?;
    }
    no_more(statement, &words[N..])?;
    Ok(numbers)
}

pub fn missing(statement: &str, field: &Field) -> String {
    format!("{} needs {}", statement, field.name)
}

/// Nothing may follow a statement's fields.
pub fn no_more(statement: &str, words: &[&str]) -> Result<(), String> {
    match words.first() {
        None => Ok(()),
        Some(word) => Err(format!(
            "\"{}\" is one field too many for {}",
            shortened(word),
            statement
        )),
    }
}

/// A word of the text as a message can show it: without control characters,
/// and not longer than a line.
pub fn shortened(word: &str) -> String {
    const LONGEST: usize = 40;
    let mut short: String = word.chars().take(LONGEST).collect();
    if short.len() < word.len() {
        short.push_str("...");
    }
    short.escape_debug().to_string()
}
