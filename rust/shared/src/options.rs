//! A program's options: read one after the other, told when they are at fault,
//! and written as a shell takes them.

use std::env::ArgsOs;
use std::ffi::{OsStr, OsString};
use std::iter::Skip;
use std::path::Path;
use std::process::ExitCode;
use std::str::FromStr;

/// The arguments that are not read yet.
pub struct Options<I>(I);

impl<I: Iterator<Item = OsString>> Options<I> {
    pub fn of(arguments: I) -> Options<I> {
        Options(arguments)
    }

    /// What stands after an option.
    pub fn value(&mut self, option: &str, what: &str) -> Result<OsString, String> {
        let value = self.next();
        value.ok_or_else(|| format!("{} without {}", option, what))
    }

    /// The number that stands after an option.
    pub fn number<N: FromStr>(&mut self, option: &str) -> Result<N, String> {
        let word = self.value(option, "a number")?;
        let number = word.to_str().and_then(|word| word.parse().ok());
        number.ok_or_else(|| format!("{} takes a number, not {}", option, word.to_string_lossy()))
    }
}

impl<I: Iterator<Item = OsString>> Iterator for Options<I> {
    type Item = OsString;

    fn next(&mut self) -> Option<OsString> {
        self.0.next()
    }
}

/// What is said of an argument that no option is.
pub fn unknown(argument: &OsStr) -> String {
    format!("no such option here: {}", argument.to_string_lossy())
}

/// What a program says of arguments at fault.
pub fn message(program: &str, reason: &str) -> String {
    format!("{0}: {1}; see {0} --help", program, reason)
}

/// What a program's arguments choose; or its end, where `read` says that the
/// usage is asked for, by none, or that they are at fault.
pub fn chosen<C>(
    program: &str,
    usage: &str,
    read: impl FnOnce(Options<Skip<ArgsOs>>) -> Result<Option<C>, String>,
) -> Result<C, ExitCode> {
    match read(Options::of(std::env::args_os().skip(1))) {
        Ok(Some(choices)) => Ok(choices),
        Ok(None) => {
            println!("{}", usage);
            Err(ExitCode::SUCCESS)
        }
        Err(reason) => Err(at_fault(program, &reason)),
    }
}

/// The end of a program whose arguments are at fault.
pub fn at_fault(program: &str, reason: &str) -> ExitCode {
    eprintln!("{}", message(program, reason));
    ExitCode::from(2)
}

/// The command line that starts a program with these arguments, as it can be
/// typed.
pub fn command_line(program: &Path, arguments: &[String]) -> String {
    let program = program.to_string_lossy();
    let words = std::iter::once(program.as_ref()).chain(arguments.iter().map(String::as_str));
    words.map(quoted).collect::<Vec<_>>().join(" ")
}

/// A word as a shell takes it: in quotation marks where it needs them.
fn quoted(word: &str) -> String {
    let plain = |letter: char| letter.is_ascii_alphanumeric() || "/._-+=:,@%".contains(letter);
    if !word.is_empty() && word.chars().all(plain) {
        word.to_string()
    } else {
        format!("'{}'", word.replace('\'', "'\\''"))
    }
}

#[cfg(test)]
mod tests {
    use super::{command_line, Options};
    use std::ffi::OsString;
    use std::path::Path;
    use std::process::Command;

    #[test]
    fn values_and_numbers() {
        let words = ["7", "x", "-1"].map(OsString::from);
        let mut options = Options::of(words.into_iter());
        assert_eq!(options.number("--seed"), Ok(7_u64));
        let no_number = options.number::<u64>("--seed");
        assert_eq!(no_number, Err("--seed takes a number, not x".to_string()));
        assert!(options.number::<u64>("--seed").is_err());
        let missing = Err("--save without a folder".to_string());
        assert_eq!(options.value("--save", "a folder"), missing);
    }

    /// A shell gives the words back as they were.
    #[test]
    fn a_command_line_can_be_typed() {
        let words = ["", "a b", "it's", "$HOME", "*", "--list", "7"].map(String::from);
        let line = command_line(
            Path::new("printf"),
            &[&["<%s>".to_string()], &words[..]].concat(),
        );
        let typed = Command::new("sh").args(["-c", &line]).output();
        let said = String::from_utf8(typed.expect("a shell").stdout).expect("a text");
        assert_eq!(said, "<><a b><it's><$HOME><*><--list><7>");
    }
}
