//! Wrong pages: each lays the records out otherwise than the model.

use model::{check, pages, print, run, Record};
use sheets_differ::runner::Runner;

type Text = fn(&[Record]) -> String;

/// A runner that prints this text, as far as there is room, in place of the
/// pages.
pub struct WrongPages {
    pub text: Text,
}

impl Runner for WrongPages {
    fn name(&self) -> &'static str {
        "wrong pages"
    }

    fn check(&self, sheet: &[u8], output_len: usize) -> u8 {
        check(sheet, output_len)
    }

    fn run(&self, sheet: &[u8], output: &mut [u8]) -> usize {
        run(sheet, output)
    }

    fn print(&self, sheet: &[u8], records: &mut [u8], pages: &mut [u8]) -> u8 {
        let mut right = pages.to_vec();
        let number = print(sheet, records, &mut right);
        if number == 0 {
            let records = model::records(sheet).expect("a sheet that runs");
            let text = (self.text)(&records).into_bytes();
            let places = pages.iter_mut().zip(text);
            places.for_each(|(place, byte)| *place = byte);
        }
        number
    }
}

/// The pages with the line of each record altered, by its index.
fn with_lines(records: &[Record], alter: fn(usize, &str) -> String) -> String {
    let text = pages(records);
    let lines = text.lines().enumerate();
    let altered = lines.map(|(index, line)| {
        if index < records.len() {
            alter(index, line) + "\n"
        } else {
            line.to_string() + "\n"
        }
    });
    altered.collect()
}

/// The line with other letters from the one column up to the other.
fn with_columns(line: &str, from: usize, to: usize, letters: &str) -> String {
    format!("{}{}{}", &line[..from], letters, &line[to..])
}

/// The lines of the records, and no blank ones.
fn lines_alone(records: &[Record]) -> String {
    pages(records)[..28 * records.len()].to_string()
}

/// The records on pages of so many lines.
fn on_pages_of(lines: usize, records: &[Record]) -> String {
    let blank = (lines - records.len() % lines) % lines;
    lines_alone(records) + &blank_lines(blank)
}

fn blank_lines(count: usize) -> String {
    format!("{:27}\n", "").repeat(count)
}

pub const PAGE_FAULTS: &[(&str, Text)] = &[
    ("an index from 1", |records| {
        with_lines(records, |index, line| {
            with_columns(line, 0, 5, &format!("{:>5}", index + 1))
        })
    }),
    ("an index from 0 on each page", |records| {
        with_lines(records, |index, line| {
            with_columns(line, 0, 5, &format!("{:>5}", index % 50))
        })
    }),
    ("an index of three digits", |records| {
        with_lines(records, |index, line| {
            with_columns(line, 0, 5, &format!("{:>5}", index % 1_000))
        })
    }),
    ("an index to the left", |records| {
        with_lines(records, |index, line| {
            with_columns(line, 0, 5, &format!("{:<5}", index))
        })
    }),
    ("an index with zeros in front", |records| {
        with_lines(records, |index, line| {
            with_columns(line, 0, 5, &format!("{:05}", index))
        })
    }),
    ("a name to the right", |records| {
        with_lines(records, |_, line| {
            with_columns(line, 6, 18, &format!("{:>12}", line[6..18].trim_end()))
        })
    }),
    ("Pre-locked 2 without its number", |records| {
        pages(records).replace("Pre-locked 2", "Pre-locked  ")
    }),
    ("Loss of lock with another letter", |records| {
        pages(records).replace("Loss of lock", "Loss of Lock")
    }),
    ("selected to the left", |records| {
        with_lines(records, |_, line| {
            with_columns(line, 19, 21, &format!("{:<2}", line[19..21].trim()))
        })
    }),
    ("selected 0 left blank", |records| {
        with_lines(records, |_, line| {
            with_columns(line, 19, 21, &line[19..21].replace('0', " "))
        })
    }),
    ("selected 9 as 0", |records| {
        with_lines(records, |_, line| {
            with_columns(line, 19, 21, &line[19..21].replace('9', "0"))
        })
    }),
    ("refusal before selected", |records| {
        with_lines(records, |_, line| {
            let swapped = format!("{} {}", &line[22..24], &line[19..21]);
            with_columns(line, 19, 24, &swapped)
        })
    }),
    ("refusal always 0", |records| {
        with_lines(records, |_, line| with_columns(line, 22, 24, " 0"))
    }),
    ("0x49 in upper case", |records| {
        with_lines(records, |_, line| {
            with_columns(line, 25, 27, &line[25..].to_uppercase())
        })
    }),
    ("0x49 of one digit", |records| {
        with_lines(records, |_, line| with_columns(line, 25, 26, " "))
    }),
    ("0x46 for 0x49", |records| {
        let other = |&[refusal, state, qualified, _]: &Record| [refusal, state, 0, qualified];
        pages(&records.iter().map(other).collect::<Vec<_>>())
    }),
    ("blanks for line feeds", |records| {
        pages(records).replace('\n', " ")
    }),
    ("no last line feed", |records| {
        pages(records).trim_end_matches('\n').to_string()
    }),
    ("a page of 49 lines", |records| on_pages_of(49, records)),
    ("a page of 51 lines", |records| on_pages_of(51, records)),
    ("the last page not filled", lines_alone),
    ("the last page filled with empty lines", |records| {
        let filled = pages(records);
        lines_alone(records) + &filled[28 * records.len()..].replace(' ', "")
    }),
    ("a blank page after a full one", |records| {
        let more = usize::from(records.len() % 50 == 0 && !records.is_empty());
        pages(records) + &blank_lines(50 * more)
    }),
    ("a blank page for no records", |records| {
        let more = usize::from(records.is_empty());
        pages(records) + &blank_lines(50 * more)
    }),
    ("the first page alone", |records| {
        pages(&records[..records.len().min(50)])
    }),
    ("65,535 bytes at most", |records| {
        let mut text = pages(records);
        text.truncate(65_535);
        text
    }),
    ("a byte after the last page", |records| {
        pages(records) + "\n"
    }),
    ("no page", |_| String::new()),
];
