//! The pages for speed: each line is put together in place, from parts that
//! stand in tables.

use super::{record_count, run_sections, sections_with_room};
use crate::pages::{pages_of, BYTES_PER_PAGE, COLUMNS};
use crate::pll::State;
use crate::refusal::Refusal;
use crate::sheet::BYTES_PER_RECORD;

/// A line with its line feed.
const LINE: usize = COLUMNS + 1;
const BLANK_LINE: [u8; LINE] = *b"                           \n";
/// So many lines have all but the last two digits of their indices in common.
const HUNDRED: usize = 100;

/// As the plain model's.
pub fn print(sheet: &[u8], records_output: &mut [u8], pages_output: &mut [u8]) -> u8 {
    let sections = match sections_with_room(sheet, records_output.len()) {
        Ok(sections) => sections,
        Err(refusal) => return refusal.number(),
    };
    let pages_len = BYTES_PER_PAGE * pages_of(record_count(sections));
    if pages_output.len() < pages_len {
        return Refusal::OutputTooShort.number();
    }
    let written = run_sections(sections, records_output);
    lay_out(&records_output[..written], &mut pages_output[..pages_len]);
    0
}

/// Fills the pages: a line for each record, then blank lines.
fn lay_out(records: &[u8], pages: &mut [u8]) {
    for (hundred, lines) in pages.chunks_mut(HUNDRED * LINE).enumerate() {
        let records = &records[HUNDRED * BYTES_PER_RECORD * hundred..];
        let records = records.chunks_exact(BYTES_PER_RECORD);
        let mut lines = lines.chunks_exact_mut(LINE);
        let front = front_digits(hundred);
        let pairs = if hundred == 0 { &FIRST_PAIRS } else { &PAIRS };
        for ((record, pair), line) in records.zip(pairs).zip(&mut lines) {
            line[..3].copy_from_slice(&front);
            line[3..5].copy_from_slice(pair);
            line[5..21].copy_from_slice(&MIDDLES[usize::from(record[1])]);
            line[21..].copy_from_slice(&end(record[0], record[3]));
        }
        for line in lines {
            line.copy_from_slice(&BLANK_LINE);
        }
    }
}

/// The first three digits of the index, blanks for the zeros in front. A sheet
/// gives fewer than 10,000 records.
fn front_digits(hundred: usize) -> [u8; 3] {
    let digit = |number: usize| b'0' + (number % 10) as u8;
    match hundred {
        0 => [b' ', b' ', b' '],
        1..=9 => [b' ', b' ', digit(hundred)],
        _ => [b' ', digit(hundred / 10), digit(hundred)],
    }
}

/// The last two digits of the index; in the first hundred without a zero in
/// front.
static PAIRS: [[u8; 2]; HUNDRED] = pairs(b'0');
static FIRST_PAIRS: [[u8; 2]; HUNDRED] = pairs(b' ');

const fn pairs(before_one_digit: u8) -> [[u8; 2]; HUNDRED] {
    let mut table = [[before_one_digit, b'0']; HUNDRED];
    let mut number = 0;
    while number < HUNDRED {
        if number > 9 {
            table[number][0] = b'0' + (number / 10) as u8;
        }
        table[number][1] = b'0' + (number % 10) as u8;
        number += 1;
    }
    table
}

/// For each byte of 0x48 the state's name and what is selected, each with the
/// blank before it.
static MIDDLES: [[u8; 16]; 256] = {
    let numbers = pairs(b' ');
    let mut table = [[b' '; 16]; 256];
    let mut byte = 0;
    while byte < 16 * State::ALL.len() {
        let name = State::ALL[byte / 16].name().as_bytes();
        let mut letter = 0;
        while letter < name.len() {
            table[byte][1 + letter] = name[letter];
            letter += 1;
        }
        [table[byte][14], table[byte][15]] = numbers[byte % 16];
        byte += 1;
    }
    table
};

/// Refusal, of one digit in a record, and 0x49, each with the blank before it,
/// and the line feed.
fn end(refusal: u8, flags: u8) -> [u8; 7] {
    const HEXADECIMAL: &[u8; 16] = b"0123456789abcdef";
    let digit = |number: u8| HEXADECIMAL[usize::from(number % 16)];
    let (high, low) = (digit(flags / 16), digit(flags));
    [b' ', b' ', b'0' + refusal, b' ', high, low, b'\n']
}
