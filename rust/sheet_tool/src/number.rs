//! Numbers as the text has them: whole ones, and offsets in ppm. An offset is a
//! whole number of steps of 1/64 ppm; nothing is rounded.

/// A step has so many digits behind the point: 1/64 is 0.015625.
const DIGITS: usize = 6;
/// 1 ppm and a step, in units of the last of these digits.
const PPM: i64 = 1_000_000;
const STEP: i64 = 15_625;

/// A number in decimal or hexadecimal, below 0 with a minus in front; None if
/// the word is none. One that is too large for every field stops at a bound.
pub fn whole(word: &str) -> Option<i64> {
    let (sign, digits) = signed(word);
    let (base, digits) = match digits.strip_prefix("0x") {
        Some(digits) => (16, digits),
        None => (10, digits),
    };
    if digits.is_empty() {
        return None;
    }
    magnitude(digits.chars(), base).map(|number| sign * number)
}

/// A decimal number of digits alone; None if the word is none. One that is too
/// large for every field stops at a bound.
pub fn decimal(digits: &str) -> Option<i64> {
    match digits {
        "" => None,
        digits => magnitude(digits.chars(), 10),
    }
}

/// The steps next to a decimal number of ppm, at or below it and at or above
/// it: twice the same if it is a whole number of them. None if the word is no
/// such number. One that is too large for every field stops at a bound.
pub fn steps(word: &str) -> Option<(i64, i64)> {
    let (sign, digits) = signed(word);
    let (whole, fraction) = digits.split_once('.').unwrap_or((digits, "0"));
    if whole.is_empty() || fraction.is_empty() {
        return None;
    }
    let zeros = std::iter::repeat('0');
    let kept = fraction.chars().chain(zeros).take(DIGITS);
    let kept = magnitude(whole.chars().chain(kept), 10)?;
    let rest = magnitude(fraction.chars().skip(DIGITS), 10)?;
    let exact = kept % STEP == 0 && rest == 0;
    let near = sign * (kept / STEP);
    let far = if exact { near } else { near + sign };
    Some((near.min(far), near.max(far)))
}

/// So many steps in ppm, with no more digits than are needed.
pub fn ppm(steps: i64) -> String {
    let sign = if steps < 0 { "-" } else { "" };
    let number = STEP * steps.abs();
    let (whole, fraction) = (number / PPM, number % PPM);
    let text = format!("{}{}.{:0digits$}", sign, whole, fraction, digits = DIGITS);
    text.trim_end_matches('0').trim_end_matches('.').to_string()
}

/// The sign of a number, 1 or -1, and what follows it.
fn signed(word: &str) -> (i64, &str) {
    match word.strip_prefix('-') {
        Some(digits) => (-1, digits),
        None => (1, word),
    }
}

/// The number that has these digits; None if one is no digit.
fn magnitude(mut digits: impl Iterator<Item = char>, base: u32) -> Option<i64> {
    digits.try_fold(0_i64, |number, digit| {
        let higher = number.saturating_mul(i64::from(base));
        Some(higher.saturating_add(i64::from(digit.to_digit(base)?)))
    })
}
