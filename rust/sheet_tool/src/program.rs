//! The program: from its arguments to its exit status.

use crate::arguments::{request, Command, Request, Work};
use crate::help::HELP;
use crate::output::Output;
use crate::pages::{pages, with_form_feeds};
use crate::picture::picture;
use crate::script::Script;
use crate::show::show;
use crate::table::table;
use shared::options::message;
use std::ffi::OsString;
use std::io::Write;
use std::process::ExitCode;

/// 0 if all went well; 1 and a message for a text, a sheet or a file that is at
/// fault; 2 and a message for arguments that are.
pub fn main(arguments: impl Iterator<Item = OsString>) -> ExitCode {
    let (message, status) = match request(arguments) {
        Ok(Request::Help) => (Output::Standard.write(HELP.as_bytes()).err(), 1),
        Ok(Request::Nothing) => (Some(HELP.trim_end().to_string()), 2),
        Ok(Request::Work(work)) => (do_work(&work).err(), 1),
        Err(reason) => (Some(message("sheet", &reason)), 2),
    };
    match message {
        None => ExitCode::SUCCESS,
        Some(message) => {
            // Where messages cannot be written, the status still tells.
            let _ = writeln!(std::io::stderr(), "{}", message);
            ExitCode::from(status)
        }
    }
}

/// Reads, makes the whole result and only then writes it.
fn do_work(work: &Work) -> Result<(), String> {
    if !work.force && work.output.overwrites(&work.source) {
        return Err(format!(
            "{}: the result would replace what it is made from; --force allows it",
            work.output.name()
        ));
    }
    let script = match work.text {
        true => work.source.read_text()?,
        false => Script::Sheet(work.source.read_sheet()?),
    };
    let sheet_of = |script: Script| {
        let sheet = script.into_sheet();
        sheet.map_err(|fault| work.source.at_fault(&fault))
    };
    let result = match work.command {
        Command::Make => sheet_of(script)?.to_bytes(),
        Command::Show => show(&sheet_of(script)?).into_bytes(),
        Command::Run => table(&script.records(), work.all).into_bytes(),
        Command::Page => {
            let pages = pages(&sheet_of(script)?).map_err(|number| work.source.refused(number))?;
            match work.form_feed {
                true => with_form_feeds(&pages),
                false => pages,
            }
        }
        Command::Picture => {
            let moments = script
                .moments()
                .map_err(|reason| format!("{}: {}", work.source.name(), reason))?;
            picture(&work.source.title(), &moments).into_bytes()
        }
    };
    work.output.write(&result)
}
