//! Where a result goes. A file is written beside and takes its place when it is
//! whole, so that a disk that is full leaves the old one.

use crate::source::Source;
use std::fs::{self, File, OpenOptions};
use std::io::{self, ErrorKind, Write};
use std::os::unix::fs::MetadataExt;
use std::path::{Path, PathBuf};

/// A file, or standard output.
#[derive(Clone, Debug, PartialEq, Eq)]
pub enum Output {
    Standard,
    File(PathBuf),
}

impl Output {
    /// As messages call it.
    pub fn name(&self) -> String {
        match self {
            Output::Standard => "standard output".to_string(),
            Output::File(path) => path.display().to_string(),
        }
    }

    /// Whether writing would take the file that the result is made from.
    pub fn overwrites(&self, source: &Source) -> bool {
        let identity = |path: &Path| {
            let file = fs::metadata(path).ok().filter(fs::Metadata::is_file)?;
            Some((file.dev(), file.ino()))
        };
        match self {
            Output::Standard => false,
            Output::File(path) => {
                let output = identity(path);
                output.is_some() && output == identity(source.path())
            }
        }
    }

    /// Writes a whole result. A reader that wants no more of it is no error.
    pub fn write(&self, result: &[u8]) -> Result<(), String> {
        let outcome = match self {
            Output::Standard => to_standard_output(result),
            Output::File(path) => to_file(path, result),
        };
        outcome.map_err(|error| format!("{}: cannot be written: {}", self.name(), error))
    }
}

fn to_standard_output(result: &[u8]) -> io::Result<()> {
    let mut output = io::stdout().lock();
    match output.write_all(result).and_then(|()| output.flush()) {
        Err(error) if error.kind() == ErrorKind::BrokenPipe => Ok(()),
        outcome => outcome,
    }
}

/// A file that is there keeps its permissions, and a link to it stays one. What
/// is no file, as a pipe or /dev/null, cannot be replaced and is written to.
fn to_file(path: &Path, result: &[u8]) -> io::Result<()> {
    let old = match fs::metadata(path) {
        Ok(old) if !old.is_file() => return fs::write(path, result),
        Ok(old) => Some((fs::canonicalize(path)?, old.permissions())),
        Err(error) if error.kind() == ErrorKind::NotFound => None,
        Err(error) => return Err(error),
    };
    let place = old.as_ref().map_or(path, |(place, _)| place);
    let (mut file, beside) = new_file_beside(place)?;
    let written = file
        .write_all(result)
        .and_then(|()| file.sync_all())
        .and_then(|()| match &old {
            Some((_, permissions)) => file.set_permissions(permissions.clone()),
            None => Ok(()),
        })
        .and_then(|()| fs::rename(&beside, place));
    if written.is_err() {
        // It is not whole, and of no use to anybody.
        let _ = fs::remove_file(&beside);
    }
    written
}

/// A new file in the same folder, under a name that nothing has there.
fn new_file_beside(path: &Path) -> io::Result<(File, PathBuf)> {
    let mut number = 0;
    loop {
        let name = format!(".sheet-{}-{}", std::process::id(), number);
        let beside = path.with_file_name(name);
        match OpenOptions::new()
            .write(true)
            .create_new(true)
            .open(&beside)
        {
            Err(error) if error.kind() == ErrorKind::AlreadyExists => number += 1,
            outcome => return outcome.map(|file| (file, beside)),
        }
    }
}
