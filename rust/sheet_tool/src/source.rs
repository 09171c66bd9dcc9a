//! What a result is made from: a text or a sheet, in a file or from standard
//! input.

use crate::make::{script, Fault};
use crate::script::Script;
use crate::sheet::Sheet;
use controller::reason;
use sheets::LONGEST_SHEET;
use std::fs::File;
use std::io::{self, Read};
use std::path::{Path, PathBuf};

/// The longest text that is read; the largest sheet needs a tenth of it.
const LONGEST_TEXT: usize = 4_000_000;

/// A file, or standard input.
#[derive(Clone, Debug, PartialEq, Eq)]
pub enum Source {
    Input,
    File(PathBuf),
}

impl Source {
    /// As messages call it.
    pub fn name(&self) -> String {
        match self {
            Source::Input => "standard input".to_string(),
            Source::File(path) => path.display().to_string(),
        }
    }

    /// As a title calls it: a file without its folder and its ending.
    pub fn title(&self) -> String {
        match self {
            Source::File(path) => path
                .file_stem()
                .unwrap_or_default()
                .to_string_lossy()
                .into(),
            Source::Input => self.name(),
        }
    }

    /// Where the file itself is found.
    pub fn path(&self) -> &Path {
        match self {
            Source::Input => Path::new("/dev/stdin"),
            Source::File(path) => path,
        }
    }

    /// Whether its name says that it is a text, in any case of letters.
    pub fn is_text(&self) -> bool {
        let ending = match self {
            Source::File(path) => path.extension(),
            Source::Input => None,
        };
        ending.map_or(false, |ending| ending.eq_ignore_ascii_case("txt"))
    }

    /// What a text says.
    pub fn read_text(&self) -> Result<Script, String> {
        let text = self.read(LONGEST_TEXT)?;
        if text.len() > LONGEST_TEXT {
            return Err(format!("{}: a text over 4,000,000 bytes", self.name()));
        }
        script(&text).map_err(|fault| self.at_fault(&fault))
    }

    /// What is said of a text that is at fault.
    pub fn at_fault(&self, fault: &Fault) -> String {
        format!("{}:{}: {}", self.name(), fault.line, fault.reason)
    }

    /// The sheet itself. One that is too long is refused for the byte over the
    /// limit.
    pub fn read_sheet(&self) -> Result<Sheet, String> {
        let bytes = self.read(LONGEST_SHEET)?;
        Sheet::from_bytes(&bytes).map_err(|number| {
            if looks_like_a_text(&bytes) {
                let reason = "a text and not a sheet; --text takes it as a text";
                format!("{}: {}", self.name(), reason)
            } else {
                self.refused(number)
            }
        })
    }

    /// What is said of a sheet that is refused with this number.
    pub fn refused(&self, number: u8) -> String {
        let reason = reason(number);
        format!("{}: sheet refused with {}: {}", self.name(), number, reason)
    }

    /// All bytes, or one more than the limit.
    fn read(&self, limit: usize) -> Result<Vec<u8>, String> {
        let mut bytes = Vec::new();
        let limit = limit as u64 + 1;
        let outcome = match self {
            Source::Input => io::stdin().lock().take(limit).read_to_end(&mut bytes),
            Source::File(path) => {
                File::open(path).and_then(|file| file.take(limit).read_to_end(&mut bytes))
            }
        };
        match outcome {
            Ok(_) => Ok(bytes),
            Err(error) => Err(format!("{}: cannot be read: {}", self.name(), error)),
        }
    }
}

/// Whether bytes that are no sheet are letters: a sheet has zeros in it. They
/// may have been cut within a letter.
fn looks_like_a_text(bytes: &[u8]) -> bool {
    let letters = match std::str::from_utf8(bytes) {
        Ok(letters) => letters,
        Err(error) if error.error_len().is_none() => {
            std::str::from_utf8(&bytes[..error.valid_up_to()]).unwrap_or_default()
        }
        Err(_) => return false,
    };
    let printed = |letter: char| !letter.is_control() || letter.is_ascii_whitespace();
    !letters.is_empty() && letters.chars().all(printed)
}
