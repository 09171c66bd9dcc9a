//! The rack program as a process: fed through a pipe, at once and in pieces.
//! The process here is the model's.

use sheets_differ::rack::{Feed, Program, Rack};
use std::path::PathBuf;
use std::process::Command;

fn program(path: &str) -> Program {
    Program {
        path: PathBuf::from(path),
    }
}

#[test]
fn a_program_is_fed_at_once_and_in_pieces() {
    let rack = program(env!("CARGO_BIN_EXE_model_rack"));
    let tick = model::Event::Tick {
        mask: 0,
        lock: true,
        sample: 1,
    };
    let long = model::sheet_of(&[(0x40, 1); 256], &vec![tick; 8_127]);
    let sheets = [
        &[][..],
        &[0xff],
        &[0; 4],
        &long,
        &[0; 65_536],
        &[1; 200_000],
    ];
    for sheet in sheets {
        for feed in Feed::ALL {
            let text = rack.print(sheet, feed).expect("a text");
            assert!(text == model::printed(sheet).as_bytes());
        }
    }
}

/// A program that ends before it has read all is no error by itself.
#[test]
fn a_program_need_not_read_to_the_end() {
    for feed in Feed::ALL {
        let text = program("/bin/true").print(&[0; 200_000], feed);
        assert_eq!(text.expect("no text"), b"");
    }
}

#[test]
fn a_missing_program_is_an_error() {
    let outcome = program("/nonexistent/rack").print(&[], Feed::AtOnce);
    assert!(outcome.is_err());
}

/// A difference is told with the command that shows it again: as it stands
/// there it can be typed in another folder.
#[test]
fn a_difference_is_seen_again_as_told() {
    let run = |command: &mut Command| {
        let outcome = command.output().expect("a process");
        let said = String::from_utf8(outcome.stdout).expect("a text");
        (outcome.status.code(), said)
    };
    let (status, said) = run(Command::new(env!("CARGO_BIN_EXE_sheets_differ"))
        .args(["--self", "--rack", "true", "--sheets", "200", "--save"])
        .arg(env!("CARGO_TARGET_TMPDIR"))
        .current_dir("/bin"));
    assert_eq!(status, Some(1), "{}", said);
    let line = |said: &str, start: &str| {
        let mut lines = said.lines().map(str::trim);
        let found = lines.find_map(|line| line.strip_prefix(start));
        found.expect(start).to_string()
    };
    let command = line(&said, "repeat it with: ");
    let save = format!("{} --save {}", command, env!("CARGO_TARGET_TMPDIR"));
    let (status, again) = run(Command::new("sh").args(["-c", &save]).current_dir("/"));
    assert_eq!(status, Some(1), "{}", again);
    assert_eq!(line(&again, "DIFFERENCE in"), line(&said, "DIFFERENCE in"));
    assert_eq!(line(&again, "repeat it with: "), command);
}
