//! The rack program: a sheet goes in through a pipe, a text comes out.

use std::fmt;
use std::io::{self, ErrorKind, Write};
use std::path::PathBuf;
use std::process::{Command, Stdio};
use std::thread;
use std::time::Duration;

/// How the program is fed.
#[derive(Clone, Copy, Debug, PartialEq, Eq)]
pub enum Feed {
    AtOnce,
    InPieces,
}

impl Feed {
    pub const ALL: [Feed; 2] = [Feed::AtOnce, Feed::InPieces];

    /// The lengths of the pieces, over and over.
    const PIECES: [usize; 8] = [1, 2, 3, 1, 9, 100, 1_500, 5_000];
    /// So many of the pieces are followed by a pause, so that the program has
    /// taken them before the next one comes.
    const PAUSES: usize = 4;

    fn write(self, sheet: &[u8], mut input: impl Write) -> io::Result<()> {
        if self == Feed::AtOnce {
            return input.write_all(sheet);
        }
        let mut rest = sheet;
        for (index, &length) in Feed::PIECES.iter().cycle().enumerate() {
            if rest.is_empty() {
                break;
            }
            let (piece, after) = rest.split_at(length.min(rest.len()));
            input.write_all(piece)?;
            rest = after;
            if index < Feed::PAUSES {
                thread::sleep(Duration::from_millis(1));
            }
        }
        Ok(())
    }
}

impl fmt::Display for Feed {
    fn fmt(&self, f: &mut fmt::Formatter) -> fmt::Result {
        f.write_str(match self {
            Feed::AtOnce => "at once",
            Feed::InPieces => "in pieces",
        })
    }
}

/// Anything that prints for a sheet as the rack program does.
pub trait Rack {
    fn print(&self, sheet: &[u8], feed: Feed) -> io::Result<Vec<u8>>;
}

/// The program at a path.
pub struct Program {
    pub path: PathBuf,
}

impl Rack for Program {
    /// The text that the program prints. It need not read to the end: a sheet
    /// may be refused before. Document 01 says nothing of its exit code.
    fn print(&self, sheet: &[u8], feed: Feed) -> io::Result<Vec<u8>> {
        let mut child = Command::new(&self.path)
            .stdin(Stdio::piped())
            .stdout(Stdio::piped())
            .spawn()?;
        let input = child.stdin.take().expect("the pipe just asked for");
        thread::scope(|scope| {
            let writer = scope.spawn(move || feed.write(sheet, input));
            let output = child.wait_with_output()?;
            match writer.join().expect("a writer that does not panic") {
                Err(error) if error.kind() != ErrorKind::BrokenPipe => Err(error),
                _ if output.status.code().is_none() => {
                    let text = format!("ended by a signal: {}", output.status);
                    Err(io::Error::new(ErrorKind::Other, text))
                }
                _ => Ok(output.stdout),
            }
        })
    }
}
