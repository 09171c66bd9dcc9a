//! What is told about a difference: where it was found, both answers, and the
//! sheet.

use crate::rack::Feed;
use model::{BYTES_PER_PAGE, BYTES_PER_RECORD, COLUMNS};
use std::fmt;

/// What is lent to be written to: to a run, or the one or the other to a print.
#[derive(Clone, Copy, Debug, PartialEq, Eq)]
pub enum Output {
    Run,
    Records,
    Pages,
}

impl Output {
    fn name(self) -> &'static str {
        match self {
            Output::Run => "a run's output",
            Output::Records => "a print's output for records",
            Output::Pages => "a print's output for pages",
        }
    }

    /// What stands at this place: the index of the record and of its byte, or
    /// those of page, line and column, all from 0.
    fn at(self, place: isize) -> String {
        let parts = |size: usize| {
            (
                place.div_euclid(size as isize),
                place.rem_euclid(size as isize),
            )
        };
        match self {
            Output::Run | Output::Records => {
                let (record, byte) = parts(BYTES_PER_RECORD);
                format!("record {}, byte {}", record, byte)
            }
            Output::Pages => {
                let (page, rest) = parts(BYTES_PER_PAGE);
                let line = COLUMNS as isize + 1;
                format!(
                    "page {}, line {}, column {}",
                    page,
                    rest / line,
                    rest % line
                )
            }
        }
    }
}

/// How the answer differs from the model's.
#[derive(Clone, Debug, PartialEq, Eq)]
pub enum Mismatch {
    Check {
        output_len: usize,
        model: u8,
        runner: u8,
    },
    Written {
        output_len: usize,
        model: usize,
        runner: usize,
    },
    Print {
        records_len: usize,
        pages_len: usize,
        model: u8,
        runner: u8,
    },
    /// The place counts from the beginning of the lent output; it is below 0
    /// or beyond the length if it was not lent.
    Byte {
        output: Output,
        output_len: usize,
        place: isize,
        model: u8,
        runner: u8,
    },
    /// The first line that differs, counted from 1, with the line feed.
    Line {
        feed: Feed,
        line: usize,
        model: String,
        rack: String,
    },
    NoText {
        feed: Feed,
        error: String,
    },
}

impl fmt::Display for Mismatch {
    fn fmt(&self, f: &mut fmt::Formatter) -> fmt::Result {
        match self {
            Mismatch::Check {
                output_len,
                model,
                runner,
            } => write!(
                f,
                "check against an output of {} bytes: the model {}, the controller {}",
                output_len, model, runner
            ),
            Mismatch::Written {
                output_len,
                model,
                runner,
            } => write!(
                f,
                "bytes written to an output of {} bytes: the model {}, the controller {}",
                output_len, model, runner
            ),
            Mismatch::Print {
                records_len,
                pages_len,
                model,
                runner,
            } => write!(
                f,
                "print with outputs of {} bytes for records and {} for pages: the model {}, the \
                 controller {}",
                records_len, pages_len, model, runner
            ),
            Mismatch::Byte {
                output,
                output_len,
                place,
                model,
                runner,
            } => write!(
                f,
                "byte {} of {}, {} bytes long ({}): the model {:#04x}, the controller {:#04x}",
                place,
                output.name(),
                output_len,
                output.at(*place),
                model,
                runner
            ),
            Mismatch::Line {
                feed,
                line,
                model,
                rack,
            } => write!(
                f,
                "line {} of the text, fed {}: the model {:?}, the rack program {:?}",
                line, feed, model, rack
            ),
            Mismatch::NoText { feed, error } => {
                write!(f, "no text of the rack program, fed {}: {}", feed, error)
            }
        }
    }
}

/// A sheet's name: its seed, and whether it is one of the damaged ones.
#[derive(Clone, Copy, Debug, PartialEq, Eq)]
pub struct Name {
    pub seed: u64,
    pub damaged: bool,
}

impl Name {
    /// The program's arguments for this sheet.
    pub fn arguments(self) -> Vec<String> {
        let mut arguments = vec!["--sheet".to_string(), self.seed.to_string()];
        if self.damaged {
            arguments.push("--damaged".to_string());
        }
        arguments
    }
}

#[derive(Clone, Debug, PartialEq, Eq)]
pub struct Difference {
    pub name: Name,
    /// What was done to the sheet.
    pub damage: Option<String>,
    pub sheet: Vec<u8>,
    pub mismatch: Mismatch,
}

impl fmt::Display for Difference {
    fn fmt(&self, f: &mut fmt::Formatter) -> fmt::Result {
        let damage = self.damage.as_deref().unwrap_or("whole");
        writeln!(
            f,
            "DIFFERENCE in the sheet of seed {} ({})",
            self.name.seed, damage
        )?;
        writeln!(f, "  {}", self.mismatch)?;
        write!(f, "  {} bytes: {}", self.sheet.len(), hex(&self.sheet))
    }
}

/// The first bytes of a sheet in hexadecimal.
pub fn hex(sheet: &[u8]) -> String {
    const SHOWN: usize = 64;
    let bytes = sheet.iter().take(SHOWN);
    let mut text: Vec<String> = bytes.map(|byte| format!("{:02x}", byte)).collect();
    if sheet.len() > SHOWN {
        text.push("...".to_string());
    }
    text.join(" ")
}
