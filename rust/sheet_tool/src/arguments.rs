//! The program's arguments.

use crate::output::Output;
use crate::source::Source;
use shared::options::{unknown, Options};
use std::ffi::OsString;

#[derive(Clone, Copy, Debug, PartialEq, Eq)]
pub enum Command {
    Make,
    Show,
    Run,
    Page,
    Picture,
}

/// What is asked for.
#[derive(Clone, Debug, PartialEq, Eq)]
pub enum Request {
    Help,
    /// There are no arguments.
    Nothing,
    Work(Work),
}

#[derive(Clone, Debug, PartialEq, Eq)]
pub struct Work {
    pub command: Command,
    pub source: Source,
    pub output: Output,
    /// Whether the result may take the place of what it is made from.
    pub force: bool,
    /// Whether the source is a text and not a sheet.
    pub text: bool,
    /// Whether each record has its own line.
    pub all: bool,
    /// Whether a form feed stands between pages.
    pub form_feed: bool,
}

/// What the arguments ask for, or what is wrong with them.
pub fn request(arguments: impl Iterator<Item = OsString>) -> Result<Request, String> {
    let mut arguments = Options::of(arguments);
    let command = match arguments.next() {
        Some(command) => command,
        None => return Ok(Request::Nothing),
    };
    let command = match command.to_str() {
        Some("help" | "--help" | "-h") => return Ok(Request::Help),
        Some("make") => Command::Make,
        Some("show") => Command::Show,
        Some("run") => Command::Run,
        Some("page") => Command::Page,
        Some("picture") => Command::Picture,
        _ => return Err(format!("no such command: {}", command.to_string_lossy())),
    };
    let mut source = None;
    let mut output = None;
    let mut text = command == Command::Make;
    let (mut all, mut form_feed, mut force) = (false, false, false);
    while let Some(argument) = arguments.next() {
        match argument.to_str() {
            Some("--help" | "-h") => return Ok(Request::Help),
            Some("--all") if command == Command::Run => all = true,
            Some("--form-feed") if command == Command::Page => form_feed = true,
            Some("--text") => text = true,
            Some("--force") => force = true,
            Some("-o") => {
                let path = arguments.value("-o", "a file's name")?;
                let file = match path.to_str() {
                    Some("-") => Output::Standard,
                    _ => Output::File(path.into()),
                };
                once(&mut output, file, "-o given twice")?;
            }
            Some("-") => once(&mut source, Source::Input, TWO_SOURCES)?,
            Some(option) if option.starts_with('-') => return Err(unknown(&argument)),
            _ => once(&mut source, Source::File(argument.into()), TWO_SOURCES)?,
        }
    }
    let source = source.unwrap_or(Source::Input);
    Ok(Request::Work(Work {
        command,
        text: text || source.is_text(),
        source,
        output: output.unwrap_or(Output::Standard),
        force,
        all,
        form_feed,
    }))
}

const TWO_SOURCES: &str = "more than one file to read";

/// Sets what may be given once.
fn once<T>(place: &mut Option<T>, value: T, twice: &str) -> Result<(), String> {
    match place.replace(value) {
        None => Ok(()),
        Some(_) => Err(twice.to_string()),
    }
}
