//! The program run as a process.

use std::io::Write;
use std::process::{Command, Output, Stdio};

/// What the program did.
#[derive(Debug, PartialEq, Eq)]
pub struct Outcome {
    pub status: Option<i32>,
    pub output: Vec<u8>,
    pub message: String,
}

impl Outcome {
    /// What a command does with nothing on standard input.
    pub fn of(command: &mut Command) -> Outcome {
        Outcome::told(command.stdin(Stdio::null()).output().expect("a command"))
    }

    fn told(output: Output) -> Outcome {
        Outcome {
            status: output.status.code(),
            output: output.stdout,
            message: String::from_utf8(output.stderr).expect("a text"),
        }
    }

    /// The text of a success.
    pub fn text(self) -> String {
        assert_eq!((self.status, self.message.as_str()), (Some(0), ""));
        String::from_utf8(self.output).expect("a text")
    }

    /// A failure with this status and message, and nothing on standard output.
    pub fn failed(status: i32, message: &str) -> Outcome {
        Outcome {
            status: Some(status),
            output: vec![],
            message: format!("{}\n", message),
        }
    }
}

pub fn command(arguments: &[&str]) -> Command {
    let mut command = Command::new(env!("CARGO_BIN_EXE_sheet"));
    command.args(arguments);
    command
}

/// Runs the program with nothing on standard input.
pub fn sheet(arguments: &[&str]) -> Outcome {
    sheet_with(arguments, b"")
}

/// Runs the program with this on standard input; it need not read all of it.
pub fn sheet_with(arguments: &[&str], input: &[u8]) -> Outcome {
    let mut child = command(arguments)
        .stdin(Stdio::piped())
        .stdout(Stdio::piped())
        .stderr(Stdio::piped())
        .spawn()
        .expect("the program");
    let _ = child.stdin.take().expect("a pipe").write_all(input);
    Outcome::told(child.wait_with_output().expect("the program's end"))
}
