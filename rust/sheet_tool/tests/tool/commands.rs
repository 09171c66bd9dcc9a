//! The commands in `bin/`: what they say before anything is proved. That they
//! run, the gate shows when all is built.

use crate::files::{absent_folder, read_text, repository};
use crate::process::Outcome;
use std::fs;
use std::process::Command;

/// Each command, and the file of its help if it has one.
const COMMANDS: [(&str, Option<&str>); 4] = [
    ("rack", None),
    ("cases", None),
    ("sheet", Some("rust/sheet_tool/src/help.txt")),
    ("bench", Some("rust/bench/src/help.txt")),
];

/// A folder with the commands and the files of their help, and nothing else of
/// the repository: no crate, no library, nothing to prove or to build.
fn bare(name: &str) -> String {
    let folder = absent_folder(name);
    for (command, help) in COMMANDS {
        let command = format!("bin/{}", command);
        for file in [Some(command.as_str()), help].into_iter().flatten() {
            let copy = format!("{}/{}", folder, file);
            let above = copy.rsplit_once('/').expect("a folder").0;
            fs::create_dir_all(above).expect("a folder");
            fs::copy(repository(file), copy).expect("a copy");
        }
    }
    folder
}

/// Runs a command of this repository from a folder that is far from it.
fn run(repository: &str, command: &str, arguments: &[&str]) -> Outcome {
    let mut child = Command::new(format!("{}/bin/{}", repository, command));
    Outcome::of(child.current_dir("/").args(arguments))
}

#[test]
fn help_comes_at_once() {
    let folder = bare("commands-help");
    for (command, file) in COMMANDS {
        for argument in ["--help", "-h"] {
            let help = run(&folder, command, &[argument]).text();
            let title = format!("{}: ", command);
            assert!(help.starts_with(&title), "{}", help);
            assert!(help.contains("usage:"), "{}", help);
            assert!(help.lines().all(|line| line.len() <= 80), "{}", help);
            if let Some(file) = file {
                assert_eq!(help, read_text(&repository(file)));
            }
        }
    }
    let help = run(&folder, "sheet", &["help"]).text();
    assert_eq!(run(&folder, "sheet", &["run", "x", "--help"]).text(), help);
    assert_eq!(
        run(&folder, "sheet", &[]),
        Outcome::failed(2, help.trim_end())
    );
}

#[test]
fn faults_are_told_before_anything_is_proved() {
    let folder = bare("commands-faults");
    let rack = |arguments: &[&str]| run(&folder, "rack", arguments);
    let missing = Outcome::failed(1, "rack: nowhere/x.sheet: cannot be read");
    assert_eq!(rack(&["nowhere/x.sheet"]), missing);
    assert_eq!(rack(&["/"]), Outcome::failed(1, "rack: /: cannot be read"));
    let two = Outcome::failed(2, "rack: more than one sheet; see bin/rack --help");
    assert_eq!(rack(&["/dev/null", "/dev/null"]), two);
    let option = Outcome::failed(2, "rack: no such option: --all; see bin/rack --help");
    assert_eq!(rack(&["--all"]), option);
    let argument = Outcome::failed(2, "cases: it takes no argument; see bin/cases --help");
    assert_eq!(run(&folder, "cases", &["A"]), argument);
}
