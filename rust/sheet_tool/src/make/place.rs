//! A place in the week, as a statement has it: a number of ticks, a time from
//! the week's start, or a day and a time of day.

use super::field::{missing, shortened, Field};
use crate::week::{minutes, ticks, DAYS, HOURS_PER_DAY, HOURS_PER_WEEK, MINUTES_PER_HOUR};

/// The place that the words begin with, and the words after it; or why they
/// begin with none.
pub fn place<'a>(
    statement: &str,
    field: &Field,
    words: &'a [&'a str],
) -> Result<(u32, &'a [&'a str]), String> {
    let (word, rest) = match words {
        [] => return Err(missing(statement, field)),
        [word, rest @ ..] => (word, rest),
    };
    if let Some(day) = DAYS.iter().position(|day| day == word) {
        let (time, rest) = after_day(word, rest)?;
        let midnight = day as u32 * HOURS_PER_DAY * MINUTES_PER_HOUR;
        return Ok((ticks(midnight + time), rest));
    }
    let place = match is_time(word) {
        true => ticks(time_up_to(HOURS_PER_WEEK, field.name, word)?),
        false => field.read(word)? as u32,
    };
    Ok((place, rest))
}

/// The time of a day in minutes, and the words after it.
fn after_day<'a>(day: &str, words: &'a [&'a str]) -> Result<(u32, &'a [&'a str]), String> {
    match words {
        [word, rest @ ..] if is_time(word) => {
            let name = format!("the time after {}", day);
            Ok((time_up_to(HOURS_PER_DAY, &name, word)?, rest))
        }
        _ => Err(format!(
            "after {} a time is missing, as in {} 07:30",
            day, day
        )),
    }
}

/// Whether a word is meant as a time.
fn is_time(word: &str) -> bool {
    word.contains(':')
}

/// The minutes of a time, which is not after this hour.
fn time_up_to(hour: u32, name: &str, word: &str) -> Result<u32, String> {
    let minutes = minutes(word).ok_or_else(|| {
        format!(
            "a time is hours and minutes from 00 to 59, such as 55:30, not \"{}\"",
            shortened(word)
        )
    })?;
    if minutes > i64::from(hour * MINUTES_PER_HOUR) {
        let word = shortened(word);
        return Err(format!("{} is 0:00 to {}:00, not {}", name, hour, word));
    }
    Ok(minutes as u32)
}
