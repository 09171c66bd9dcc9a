//! The rack printout of document 02, #101: the records of a run laid out as
//! pages. Sentences in quotation marks are document 02's.

use crate::pll::State;
use crate::refusal::Refusal;
use crate::sheet::{events_with_room, records_of, write_front, Record};

/// "lines of 27 columns"
pub const COLUMNS: usize = 27;
/// "A page has 50 lines"
pub const LINES_PER_PAGE: usize = 50;
/// "1,400 bytes a page", of which one in each line: "Each line ends with a line
/// feed"
pub const BYTES_PER_PAGE: usize = LINES_PER_PAGE * (COLUMNS + 1);

/// "The call takes the sheet and two outputs, for records and page, and returns
/// the number, 0 if it ran; bytes after the last page are unchanged." "when the
/// call is refused, both outputs are unchanged"
///
/// Reading: the records stand at the front of the first output as after a run,
/// and the bytes after them are unchanged too.
pub fn print(sheet: &[u8], records_output: &mut [u8], pages_output: &mut [u8]) -> u8 {
    match records_with_room(sheet, records_output.len(), pages_output.len()) {
        Ok(records) => {
            write_front(records_output, &records.concat());
            write_front(pages_output, pages(&records).as_bytes());
            0
        }
        Err(refusal) => refusal.number(),
    }
}

/// "Number 13 also means a page output under 1,400 bytes a page"
///
/// Reading: 9 to 12 come first, then 13 for either output.
fn records_with_room(
    sheet: &[u8],
    records_len: usize,
    pages_len: usize,
) -> Result<Vec<Record>, Refusal> {
    let events = events_with_room(sheet, records_len)?;
    if pages_len < BYTES_PER_PAGE * pages_of(events.len()) {
        return Err(Refusal::OutputTooShort);
    }
    Ok(records_of(&events))
}

/// How many pages so many records take: "no records, no page".
pub fn pages_of(records: usize) -> usize {
    (records + LINES_PER_PAGE - 1) / LINES_PER_PAGE
}

/// The text of the pages. "A page has 50 lines; the last is filled with blank
/// lines of 27 spaces. Each line ends with a line feed; no records, no page."
///
/// Reading: the index counts over the whole run, from 0, as the rack program's
/// does.
pub fn pages(records: &[Record]) -> String {
    let mut text = String::new();
    for (index, record) in records.iter().enumerate() {
        text += &line(index, record);
    }
    let blank_line = " ".repeat(COLUMNS) + "\n";
    let blank_lines = LINES_PER_PAGE * pages_of(records.len()) - records.len();
    text + &blank_line.repeat(blank_lines)
}

/// "index right-aligned in 5, state name left-aligned in 12, selected and
/// refusal right-aligned in 2 each, 0x49 as two lower-case hexadecimal digits,
/// a blank between columns. [..] Each line ends with a line feed"
///
/// State and selected are those of 0x48, which is, in document 01's words, "16
/// times state [..] + selected".
fn line(index: usize, record: &Record) -> String {
    let [refusal, state_and_selected, _, flags] = record;
    let state = State::ALL[usize::from(state_and_selected / 16)].name();
    let selected = state_and_selected % 16;
    format!(
        "{:>5} {:<12} {:>2} {:>2} {:02x}\n",
        index, state, selected, refusal, flags
    )
}
