//! Where results go: standard output, and files that are replaced only by a
//! whole result.

use crate::files::{absent, absent_folder, example, present, read};
use crate::process::{command, sheet, sheet_with, Outcome};
use std::fs;
use std::os::unix::fs::{symlink, MetadataExt, PermissionsExt};
use std::process::{Command, Stdio};

/// A folder of a test's own.
fn folder(name: &str) -> String {
    let folder = absent_folder(name);
    fs::create_dir_all(&folder).expect("a folder");
    folder
}

/// The names of what is in a folder.
fn names(folder: &str) -> Vec<String> {
    let entries = fs::read_dir(folder).expect("a folder");
    let name = |entry: fs::DirEntry| entry.file_name().into_string().expect("a name");
    let mut names: Vec<_> = entries
        .map(|entry| name(entry.expect("an entry")))
        .collect();
    names.sort();
    names
}

#[test]
fn results_in_files() {
    let text = example("first-lock", "txt");
    let output = present("output-there", b"longer than what comes, or not");
    for command in ["make", "show", "run", "page", "picture"] {
        for output in [&output, &absent("output-new")] {
            let written = sheet(&[command, &text, "-o", output]);
            assert_eq!(written.text(), "");
            assert_eq!(&read(output), &sheet(&[command, &text]).output);
        }
    }
}

#[test]
fn a_dash_is_standard_output() {
    let text = example("first-lock", "txt");
    for command in ["make", "show", "run", "page", "picture"] {
        let written = sheet(&[command, &text, "-o", "-"]);
        assert_eq!(written, sheet(&[command, &text]));
    }
}

/// However the file is called: by its name, by another path, by a link of
/// either kind, or as standard input.
#[test]
fn a_file_is_not_overwritten_by_its_own_result() {
    const TEXT: &[u8] = b"repeat 2\nhit\nend";
    let folder = folder("output-itself");
    let path = |name: &str| format!("{}/{}", folder, name);
    let file = path("itself.txt");
    fs::write(&file, TEXT).expect("a file");
    symlink("itself.txt", path("link")).expect("a link");
    fs::hard_link(&file, path("hard")).expect("a link");
    let refused = |output: &str| {
        let reason = "the result would replace what it is made from; --force allows it";
        Outcome::failed(1, &format!("{}: {}", output, reason))
    };
    for output in [
        &file,
        &path("../output-itself/itself.txt"),
        &path("link"),
        &path("hard"),
    ] {
        assert_eq!(sheet(&["show", &file, "-o", output]), refused(output));
        let input = fs::File::open(&file).expect("the file");
        let mut from_input = command(&["show", "--text", "-o", output]);
        let outcome = from_input.stdin(input).output().expect("the end");
        assert_eq!(outcome.status.code(), Some(1));
        assert_eq!(
            String::from_utf8_lossy(&outcome.stderr),
            refused(output).message
        );
    }
    assert_eq!(read(&file), TEXT);
    assert_eq!(sheet(&["show", &file, "--force", "-o", &file]).text(), "");
    let shown = "# settings (writes on a fresh unit): 0\n\n# events: 2\n2 x hit\n";
    assert_eq!(read(&file), shown.as_bytes());
    assert_eq!(names(&folder), ["hard", "itself.txt", "link"]);
    // rt ci reads every folder of the checkout, and takes no link.
    fs::remove_file(path("link")).expect("the link");
}

/// A limit of a kilobyte on files stands for a disk that is full.
#[test]
fn a_disk_that_is_full_leaves_the_old_file() {
    let folder = folder("output-full");
    let output = format!("{}/records", folder);
    fs::write(&output, b"as before").expect("a file");
    let limited = "ulimit -f 1 && trap '' XFSZ && exec \"$0\" \"$@\"";
    let outcome = Outcome::of(Command::new("bash").args(["-c", limited]).args([
        env!("CARGO_BIN_EXE_sheet"),
        "run",
        "--all",
        &example("history-commands", "txt"),
        "-o",
        &output,
    ]));
    let reason = "cannot be written: File too large (os error 27)";
    assert_eq!(
        outcome,
        Outcome::failed(1, &format!("{}: {}", output, reason))
    );
    assert_eq!(read(&output), b"as before");
    assert_eq!(names(&folder), ["records"]);
}

#[test]
fn a_replaced_file_keeps_its_permissions_and_its_links() {
    let folder = folder("output-kept");
    let (file, link) = (format!("{}/file", folder), format!("{}/link", folder));
    fs::write(&file, b"as before").expect("a file");
    fs::set_permissions(&file, fs::Permissions::from_mode(0o640)).expect("permissions");
    symlink("file", &link).expect("a link");
    assert_eq!(sheet_with(&["make", "-o", &link], b"").text(), "");
    assert_eq!(read(&file), [0; 4]);
    let mode = fs::metadata(&file).expect("the file").mode();
    assert_eq!(mode & 0o777, 0o640);
    assert!(fs::symlink_metadata(&link).expect("the link").is_symlink());
    assert_eq!(names(&folder), ["file", "link"]);
    fs::remove_file(&link).expect("the link");
}

/// What is no file is written to, and is there afterwards.
#[test]
fn a_device_is_not_replaced() {
    assert_eq!(sheet_with(&["make", "-o", "/dev/null"], b"hit").text(), "");
    assert!(!fs::metadata("/dev/null").expect("a device").is_file());
    let outcome = sheet_with(&["make", "-o", env!("CARGO_TARGET_TMPDIR")], b"hit");
    assert_eq!(outcome.status, Some(1));
    assert!(outcome
        .message
        .contains("cannot be written: Is a directory"));
}

#[test]
fn an_output_that_is_full_is_an_error() {
    let full = fs::OpenOptions::new().write(true).open("/dev/full");
    let mut full_output = command(&["help"]);
    full_output.stdout(full.expect("/dev/full"));
    let outcome = full_output
        .stderr(Stdio::piped())
        .output()
        .expect("the end");
    assert_eq!(outcome.status.code(), Some(1));
    let message = String::from_utf8(outcome.stderr).unwrap();
    assert!(message.starts_with("standard output: cannot be written: "));
}
