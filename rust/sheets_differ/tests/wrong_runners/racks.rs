//! Wrong rack programs: each prints another text than the model.

use model::printed;
use sheets_differ::rack::{Feed, Rack};
use std::io;

type Text = fn(&[u8], Feed) -> String;

pub struct WrongRack {
    pub text: Text,
}

impl Rack for WrongRack {
    fn print(&self, sheet: &[u8], feed: Feed) -> io::Result<Vec<u8>> {
        Ok((self.text)(sheet, feed).into_bytes())
    }
}

/// The text with each line but the first altered.
fn with_lines(sheet: &[u8], alter: fn(usize, &str) -> String) -> String {
    let text = printed(sheet);
    let lines = text.lines().enumerate();
    let altered = lines.map(|(index, line)| match index {
        0 => line.to_string() + "\n",
        _ => alter(index, line) + "\n",
    });
    altered.collect()
}

fn fields(line: &str) -> Vec<&str> {
    line.split(' ').collect()
}

pub const RACK_FAULTS: &[(&str, Text)] = &[
    ("upper-case hex", |sheet, _| {
        with_lines(sheet, |_, line| line.to_uppercase())
    }),
    ("an index that starts at 1", |sheet, _| {
        with_lines(sheet, |index, line| {
            let rest = fields(line)[1..].join(" ");
            format!("{} {}", index, rest)
        })
    }),
    ("an index in hexadecimal", |sheet, _| {
        with_lines(sheet, |index, line| {
            let rest = fields(line)[1..].join(" ");
            format!("{:x} {}", index - 1, rest)
        })
    }),
    ("bytes of one digit", |sheet, _| {
        printed(sheet).replace(" 03\n", " 3\n")
    }),
    ("two blanks", |sheet, _| {
        with_lines(sheet, |_, line| line.replacen(' ', "  ", 1))
    }),
    ("no last line feed", |sheet, _| {
        printed(sheet).trim_end().to_string()
    }),
    ("an empty line more", |sheet, _| printed(sheet) + "\n"),
    ("carriage returns", |sheet, _| {
        printed(sheet).replace('\n', "\r\n")
    }),
    ("the last record left out", |sheet, _| {
        let text = printed(sheet);
        let end = text
            .trim_end()
            .rfind('\n')
            .map_or(text.len(), |end| end + 1);
        text[..end].to_string()
    }),
    ("a text of 65,536 bytes at most", |sheet, _| {
        let mut text = printed(sheet);
        text.truncate(65_536);
        text
    }),
    ("only the first piece read", |sheet, feed| match feed {
        Feed::AtOnce => printed(sheet),
        Feed::InPieces => printed(&sheet[..sheet.len().min(1)]),
    }),
    ("65,535 bytes read, the rest left", |sheet, _| {
        printed(&sheet[..sheet.len().min(65_535)])
    }),
    ("an output of 32,768 bytes", |sheet, _| {
        match model::check(sheet, 32_768) {
            13 => "refused 13\n".to_string(),
            _ => printed(sheet),
        }
    }),
    (
        "nothing printed when refused",
        |sheet, _| match model::check(sheet, usize::MAX) {
            0 => printed(sheet),
            _ => String::new(),
        },
    ),
];
