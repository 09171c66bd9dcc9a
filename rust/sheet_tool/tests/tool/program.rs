//! The program: its arguments, help, exit statuses, input and output.

use crate::files::{absent, example, present};
use crate::process::{command, sheet, sheet_with, Outcome};
use std::io::Read;
use std::process::Stdio;

const RECORDS_OF_A_HIT: &str = "\
first   last    from s      to s  state         selected  qualified  alarm  Ready  backup  refusal
    0      0     0.000     0.000  Free Run      none      ........   alarm  -      -       5 Hit with no reference 1 to 8 selected
";

#[test]
fn help_says_it_all() {
    let help = sheet(&["--help"]).text();
    for arguments in [
        &["help"][..],
        &["-h"],
        &["run", "--help"],
        &["make", "x", "-h"],
    ] {
        assert_eq!(sheet(arguments).text(), help);
    }
    let nothing = sheet(&[]);
    assert_eq!((nothing.status, nothing.output.len()), (Some(2), 0));
    assert_eq!(nothing.message, help);
    for word in [
        "make",
        "show",
        "run",
        "page",
        "picture",
        "-o",
        "-o -",
        "--all",
        "--form-feed",
        "--text",
        "--force",
        ".txt",
        "table",
        "setting",
        "tick",
        "measurement",
        "OFFSET ppm",
        "OFFSET steps",
        "hit",
        "write",
        "bucket",
        "assign",
        "week PLACE",
        "windows START to END",
        "windows none",
        "mon 07:30",
        "28,125 ticks",
        "repeat",
        "end",
        "COUNT x",
        "exit status",
    ] {
        assert!(help.contains(word), "no word on {}", word);
    }
    assert!(help.lines().all(|line| line.len() <= 80));
}

/// The table at the end of the help is the registers' names, all of them and
/// no other, in the order of their addresses.
#[test]
fn help_names_the_registers() {
    let help = sheet(&["--help"]).text();
    let (_, table) = help.split_once("for an ADDRESS:\n").expect("the table");
    let registers = sheet_tool::registers::all();
    let words = registers.flat_map(|(address, name)| [format!("{:#04x}", address), name.into()]);
    assert!(table.split_whitespace().eq(words));
}

#[test]
fn bad_arguments_have_status_2() {
    for (arguments, reason) in [
        (&["draw"][..], "no such command: draw"),
        (&[""], "no such command: "),
        (&["--all"], "no such command: --all"),
        (&["run", "--every"], "no such option here: --every"),
        (&["make", "--all"], "no such option here: --all"),
        (&["page", "--all"], "no such option here: --all"),
        (&["run", "--form-feed"], "no such option here: --form-feed"),
        (&["show", "-x"], "no such option here: -x"),
        (&["make", "-o"], "-o without a file's name"),
        (&["make", "-o", "a", "-o", "b"], "-o given twice"),
        (&["make", "a", "b"], "more than one file to read"),
        (&["run", "-", "a"], "more than one file to read"),
    ] {
        let message = format!("sheet: {}; see sheet --help", reason);
        assert_eq!(sheet(arguments), Outcome::failed(2, &message));
    }
}

#[test]
fn files_that_cannot_be_read_or_written() {
    let missing = absent("program-missing");
    let reason = "cannot be read: No such file or directory (os error 2)";
    let failed = Outcome::failed(1, &format!("{}: {}", missing, reason));
    for command in ["make", "show", "run", "page", "picture"] {
        assert_eq!(sheet(&[command, &missing]), failed);
        let of_folder = sheet(&[command, env!("CARGO_TARGET_TMPDIR")]);
        assert_eq!((of_folder.status, of_folder.output.len()), (Some(1), 0));
        assert!(of_folder.message.contains("cannot be read"));
    }
    let output = format!("{}/output", missing);
    let reason = "cannot be written: No such file or directory (os error 2)";
    let failed = Outcome::failed(1, &format!("{}: {}", output, reason));
    assert_eq!(sheet_with(&["make", "-o", &output], b"hit"), failed);
}

#[test]
fn a_text_without_end_is_not_read_to_it() {
    let message = "/dev/zero: a text over 4,000,000 bytes";
    assert_eq!(sheet(&["make", "/dev/zero"]), Outcome::failed(1, message));
    let message = "sheet over 65,535 bytes, or a settings count over 256";
    let message = format!("/dev/zero: sheet refused with 9: {}", message);
    assert_eq!(sheet(&["run", "/dev/zero"]), Outcome::failed(1, &message));
}

#[test]
fn standard_input_and_output() {
    let bytes = [0, 0, 1, 0, 2, 0, 0, 0, 0, 0, 0, 0];
    for arguments in [&["make"][..], &["make", "-"], &["make", "--text", "-"]] {
        let made = sheet_with(arguments, b"hit\n");
        assert_eq!((made.status, &made.output[..]), (Some(0), &bytes[..]));
    }
    for arguments in [&["run"][..], &["run", "-"], &["run", "-", "--all"]] {
        assert_eq!(sheet_with(arguments, &bytes).text(), RECORDS_OF_A_HIT);
    }
    assert_eq!(
        sheet_with(&["run", "--text"], b"hit").text(),
        RECORDS_OF_A_HIT
    );
    let svg = sheet_with(&["picture"], &bytes).text();
    assert!(svg.contains("<title>standard input</title>"));
}

#[test]
fn files_by_their_endings_and_by_text() {
    let text = present("program-hit.txt", b"hit");
    let other = present("program-hit.text", b"hit");
    for ending in ["txt", "TXT", "Txt"] {
        let text = present(&format!("program-hit-{0}.{0}", ending), b"hit");
        assert_eq!(sheet(&["run", &text]).text(), RECORDS_OF_A_HIT);
    }
    assert_eq!(sheet(&["run", "--text", &other]).text(), RECORDS_OF_A_HIT);
    assert_eq!(sheet(&["make", &other]), sheet(&["make", &text]));
}

/// A text that is given as a sheet is told so; a damaged sheet has its number.
#[test]
fn a_text_is_no_damaged_sheet() {
    let reason = "a text and not a sheet; --text takes it as a text";
    let long = "# no sheet, 65,535 bytes and more: Ü\n".repeat(3_000);
    for (name, text) in [
        ("a word", "hit"),
        ("lines", "# a comment\r\n\thit\n"),
        ("letters", "# Prüfung\n"),
        ("long", &long),
        ("long, cut in a letter", &long[1..]),
    ] {
        let file = present("program-text.sheet", text.as_bytes());
        for command in ["show", "run", "page", "picture"] {
            let of_file = Outcome::failed(1, &format!("{}: {}", file, reason));
            assert_eq!(sheet(&[command, &file]), of_file, "{}", name);
            let of_input = Outcome::failed(1, &format!("standard input: {}", reason));
            assert_eq!(sheet_with(&[command], text.as_bytes()), of_input);
        }
    }
    for damaged in [&b"hit\0"[..], b"\xff\xfe", b"\x01", b""] {
        let message = sheet_with(&["run"], damaged).message;
        assert!(
            message.starts_with("standard input: sheet refused with "),
            "{}",
            message
        );
    }
}

#[test]
fn a_reader_that_stops_is_no_error() {
    let text = example("history-commands", "txt");
    let mut child = command(&["run", "--all", &text])
        .stdout(Stdio::piped())
        .stderr(Stdio::piped())
        .spawn()
        .expect("the program");
    let mut first = [0; 5];
    let mut output = child.stdout.take().expect("a pipe");
    output.read_exact(&mut first).expect("a first word");
    drop(output);
    let outcome = child.wait_with_output().expect("the program's end");
    assert_eq!((&first, outcome.status.code()), (b"first", Some(0)));
    assert_eq!(outcome.stderr, b"");
}
