//! The repository's files that the tests read, and files of their own.

use std::fs;
use std::io;

/// The examples, all texts in the folder `examples`, by their names without
/// endings.
pub fn examples() -> Vec<String> {
    examples_with(".txt")
}

/// The files of the folder `examples` with this ending, by their names without
/// it.
pub fn examples_with(ending: &str) -> Vec<String> {
    names_in("examples", ending)
}

/// The files of a folder of the repository with this ending, by their names
/// without it.
pub fn names_in(folder: &str, ending: &str) -> Vec<String> {
    let entries = fs::read_dir(repository(folder)).expect("a folder of the repository");
    let name = |entry: io::Result<fs::DirEntry>| {
        let name = entry.expect("an entry").file_name();
        let name = name.into_string().expect("a name in UTF-8");
        name.strip_suffix(ending).map(String::from)
    };
    let mut names: Vec<String> = entries.filter_map(name).collect();
    names.sort();
    names
}

/// A path in the repository.
pub fn repository(path: &str) -> String {
    format!("{}/../../{}", env!("CARGO_MANIFEST_DIR"), path)
}

pub fn example(name: &str, ending: &str) -> String {
    repository(&format!("examples/{}.{}", name, ending))
}

pub fn read(path: &str) -> Vec<u8> {
    fs::read(path).unwrap_or_else(|error| panic!("{}: {}", path, error))
}

pub fn read_text(path: &str) -> String {
    String::from_utf8(read(path)).expect("a text")
}

/// A path for a test's own file, which is not there yet.
pub fn absent(name: &str) -> String {
    let path = format!("{}/{}", env!("CARGO_TARGET_TMPDIR"), name);
    let _ = fs::remove_file(&path);
    path
}

/// A path for a test's own folder, which is not there yet.
pub fn absent_folder(name: &str) -> String {
    let path = format!("{}/{}", env!("CARGO_TARGET_TMPDIR"), name);
    let _ = fs::remove_dir_all(&path);
    path
}

/// A test's own file with this content.
pub fn present(name: &str, content: &[u8]) -> String {
    let path = absent(name);
    fs::write(&path, content).expect("a file in the folder for tests");
    path
}
