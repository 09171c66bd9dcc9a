//! The program's arguments: those that name a list again, and faults.

use differ::difference::Name;
use shared::options::command_line;
use std::path::Path;
use std::process::{Command, Output};

const PROGRAM: &str = env!("CARGO_BIN_EXE_differ");

fn text(output: &[u8]) -> String {
    String::from_utf8(output.to_vec()).expect("a text")
}

fn run(arguments: &[&str]) -> Output {
    Command::new(PROGRAM)
        .args(arguments)
        .output()
        .expect("the program")
}

/// The command that is told beside a difference is one that a shell takes, in
/// any folder, and it names that list.
#[test]
fn a_list_is_named_again() {
    let name = |long| Name { seed: 7, long }.arguments();
    assert_eq!(name(true).join(" "), "--list 7 --long");
    let line = command_line(Path::new(PROGRAM), &name(false)) + " --self";
    let mut shell = Command::new("sh");
    let outcome = shell.args(["-c", &line]).current_dir("/").output();
    let outcome = outcome.expect("a shell");
    let said = text(&outcome.stdout);
    assert!(said.starts_with("differ --list 7: 1 lists, "), "{}", said);
    assert!(said.ends_with("no difference\n"), "{}", said);
    assert_eq!(outcome.status.code(), Some(0));
}

#[test]
fn help_and_faults() {
    let help = run(&["--help"]);
    assert!(text(&help.stdout).starts_with("usage: differ "));
    assert_eq!(help.status.code(), Some(0));
    for (arguments, reason) in [
        (&["--lists"][..], "--lists without a number"),
        (&["--seed", "x"], "--seed takes a number, not x"),
        (&["--selves"], "no such option here: --selves"),
        (&[""], "no such option here: "),
    ] {
        let outcome = run(arguments);
        assert_eq!((outcome.status.code(), outcome.stdout.len()), (Some(2), 0));
        let message = format!("differ: {}; see differ --help\n", reason);
        assert_eq!(text(&outcome.stderr), message);
    }
}
