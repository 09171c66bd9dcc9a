//! From the text to what is run, and to the sheet: `make`.

mod assembly;
mod call;
mod fault;
mod field;
mod place;
mod statement;

pub use fault::Fault;

use crate::script::Script;
use crate::sheet::Sheet;
use assembly::{Aim, Assembly};
use statement::{is_for_a_host, statement};

/// The sheet that the text says. A table or a call is a fault; others are told
/// first.
pub fn make(text: &[u8]) -> Result<Sheet, Fault> {
    script(text)?.into_sheet()
}

/// What the text says, statement by statement: a sheet, if it has no table and
/// no calls.
pub fn script(text: &[u8]) -> Result<Script, Fault> {
    let text = characters(text)?;
    let aim = match text.lines().any(is_for_a_host) {
        true => Aim::Host,
        false => Aim::Sheet,
    };
    let mut assembly = Assembly::of(aim);
    for (index, words) in text.lines().enumerate() {
        let line = index + 1;
        let fault = |reason| Fault { line, reason };
        let statement = statement(words).map_err(fault)?;
        assembly.take(line, statement).map_err(fault)?;
    }
    assembly.finished()
}

/// The text as characters, without the mark that some editors put in front.
fn characters(text: &[u8]) -> Result<&str, Fault> {
    match std::str::from_utf8(text) {
        Ok(text) => Ok(text.strip_prefix('\u{feff}').unwrap_or(text)),
        Err(error) => {
            let before = &text[..error.valid_up_to()];
            Err(Fault {
                line: 1 + before.iter().filter(|&&byte| byte == b'\n').count(),
                reason: "not a text in UTF-8".to_string(),
            })
        }
    }
}
