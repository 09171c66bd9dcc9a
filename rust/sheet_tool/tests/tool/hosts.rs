//! Texts for a host, with a table or with calls: what they say, their faults,
//! and that no sheet is made of them.

use crate::files::{absent, present, read};
use crate::process::{sheet, Outcome};
use crate::random;
use shared::random::Random;
use sheet_tool::make::{make, script, Fault};
use sheet_tool::script::{Host, Script};
use sheet_tool::sheet::Sheet;
use sheet_tool::step::{Call, Step};
use std::path::Path;

/// What a text for a host says.
pub fn host(text: &str) -> Host {
    match script(text.as_bytes()) {
        Ok(Script::Host(host)) => host,
        other => panic!("{:?}", other),
    }
}

/// A random sheet, and a host that takes its steps with calls between them.
pub fn with_calls(random: &mut Random, call: impl Fn(&mut Random) -> Call) -> (Sheet, Host) {
    let events = random.below(400) as usize;
    let sheet = random::sheet(random, 10, events);
    let mut steps: Vec<_> = sheet.steps().map(Step::Event).collect();
    for _ in 0..random.between(1, 20) {
        let place = random.below(steps.len() as u32 + 1) as usize;
        steps.insert(place, Step::Call(call(random)));
    }
    let no_sheet = Fault {
        line: 1,
        reason: String::new(),
    };
    let table = None;
    let host = Host {
        table,
        steps,
        no_sheet,
    };
    (sheet, host)
}

#[track_caller]
pub fn check_fault(text: &str, line: usize, reason: &str) {
    let fault = script(text.as_bytes()).expect_err("a fault");
    let reason = reason.to_string();
    assert_eq!(fault, Fault { line, reason }, "{}", text);
}

/// These commands fail alike for the text, and write nothing. The name is that
/// of the test's files.
pub fn check_failed(name: &str, commands: &[&str], text: &str, line: usize, reason: &str) {
    let file = present(&format!("{}.txt", name), text.as_bytes());
    let output = absent(&format!("{}-output", name));
    for command in commands {
        let failed = Outcome::failed(1, &format!("{}:{}: {}", file, line, reason));
        assert_eq!(sheet(&[command, &file]), failed);
        assert_eq!(sheet(&[command, &file, "-o", &output]), failed);
        assert!(!Path::new(&output).exists());
    }
}

/// The statement of this line, which begins with the word, has no place in a
/// sheet; the text can be run and drawn.
pub fn check_no_sheet(text: &str, line: usize, word: &str) {
    let reason = format!(
        "a run sheet has no place for {}; run and picture take it",
        word
    );
    let commands = ["make", "show", "page"];
    let name = format!("no-sheet-{}", word);
    check_failed(&name, &commands, text, line, &reason);
    assert_eq!(make(text.as_bytes()), Err(Fault { line, reason }));
    let file = present(&format!("{}-run.txt", name), text.as_bytes());
    for command in ["run", "picture"] {
        let output = absent(&format!("{}-{}", name, command));
        assert_eq!(sheet(&[command, &file, "-o", &output]).text(), "");
        assert!(!read(&output).is_empty());
    }
}
