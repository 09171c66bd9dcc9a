//! Texts with calls of the host: what they may say, their runs and pictures,
//! and that no sheet is made of them.

use crate::hosts::{check_fault, check_no_sheet, host, with_calls};
use crate::process::sheet_with;
use crate::random;
use crate::same_records::check_host;
use crate::xml::texts;
use controller::Unit;
use shared::random::Random;
use sheet_tool::make::{make, script};
use sheet_tool::records::run;
use sheet_tool::script::timed;
use sheet_tool::step::{Call, Step};
use sheet_tool::stepped::stepped;

#[test]
fn the_statements() {
    let steps = host("setting control 1\nbucket 1 0x14 10 5 3\n2 x assign 255 0").steps;
    let bucket = Call::SetBucket {
        set: 1,
        numbers: [20, 10, 5, 3],
    };
    let assign = Call::AssignBucket { input: 255, set: 0 };
    assert!(matches!(steps[0], Step::Event(_)));
    let calls = [bucket.clone(), assign.clone(), assign.clone()].map(Step::Call);
    assert_eq!(steps[1..], calls);
    let words = [bucket.to_string(), assign.to_string()];
    assert_eq!(words, ["bucket 1 20 10 5 3", "assign 255 0"]);
    let repeated = host("repeat 2\nassign 255 0\nend").steps;
    assert_eq!(repeated, calls[1..]);
}

#[test]
fn faults() {
    check_fault("bucket", 1, "bucket needs SET");
    check_fault("bucket 0", 1, "bucket needs SIZE");
    check_fault("bucket 0 8", 1, "bucket needs SET_LEVEL");
    check_fault("bucket 0 8 6", 1, "bucket needs CLEAR_LEVEL");
    check_fault("\nbucket 0 8 6 4", 2, "bucket needs DECAY");
    let many = "\"9\" is one field too many for bucket";
    check_fault("bucket 0 8 6 4 1 9", 1, many);
    check_fault("assign", 1, "assign needs INPUT");
    check_fault("hit\nassign 1", 2, "assign needs SET");
    let many = "\"1\" is one field too many for assign";
    check_fault("assign 1 1 1", 1, many);
    for (text, reason) in [
        ("bucket 256 8 6 4 1", "SET is 0 to 255, not 256"),
        ("bucket 0 256 6 4 1", "SIZE is 0 to 255, not 256"),
        ("bucket 0 8 0x100 4 1", "SET_LEVEL is 0 to 255, not 0x100"),
        ("bucket 0 8 6 -1 1", "CLEAR_LEVEL is 0 to 255, not -1"),
        ("bucket 0 8 6 4 256", "DECAY is 0 to 255, not 256"),
        ("assign 256 0", "INPUT is 0 to 255, not 256"),
        ("assign 1 -1", "SET is 0 to 255, not -1"),
        ("assign control 0", "INPUT is a number, not \"control\""),
    ] {
        check_fault(text, 1, reason);
    }
    let late = "a setting after an event; write is for those";
    check_fault("assign 1 0\nsetting control 1", 2, late);
}

/// A sheet's limits are not for a text with calls, wherever the first one
/// stands; it has one of its own.
#[test]
fn limits() {
    let long = "300 x setting control 1\n60000 x tick 0 0 0\nassign 1 0";
    assert_eq!(host(long).steps.len(), 60_301);
    let most = "assign 1 0\nrepeat 1000\n999 x tick 0 0 0\nend\n999 x tick 0 0 0\n";
    assert_eq!(host(most).steps.len(), 1_000_000);
    let reason = "there would be more than 1,000,000 records";
    check_fault(&format!("{}hit", most), 6, reason);
    let deep = "repeat 65535\n".repeat(8) + "assign 1 0\n" + &"end\n".repeat(8);
    let reason = "there would be more than 1,000,000 records (repeat of line 7)";
    check_fault(&deep, 11, reason);
    // In a text without calls they are as they were.
    let reason = "the sheet would be over 65,535 bytes";
    check_fault("60000 x tick 0 0 0\n# assign 1 0", 1, reason);
    check_fault("60000 x tick 0 0 0\nassign 1", 2, "assign needs SET");
}

const TITLES: &str = "first   last    from s      to s  state         selected  qualified  alarm  Ready  backup  refusal\n";

/// What the unit refuses is no fault of the text.
#[test]
fn refused_calls() {
    let text = "bucket 4 8 6 4 1\nbucket 0 8 9 4 1\ntick 0 0 0\nassign 9 4\nassign 8 4\nassign 8 3";
    let lines = "    0      1     0.000     0.000  Free Run      none      ........   alarm  -      -       14 bucket set out of its bounds, or set number over 3
    2      2     0.128     0.128  Free Run      none      ........   alarm  -      -       0
    3      3     0.128     0.128  Free Run      none      ........   alarm  -      -       6 input not 1 to 8
    4      4     0.128     0.128  Free Run      none      ........   alarm  -      -       14 bucket set out of its bounds, or set number over 3
    5      5     0.128     0.128  Free Run      none      ........   alarm  -      -       0
";
    let run = sheet_with(&["run", "--text"], text.as_bytes()).text();
    assert_eq!(run, TITLES.to_string() + lines);
    let all = sheet_with(&["run", "--all", "--text"], text.as_bytes()).text();
    assert_eq!(all.lines().count(), 7);
    check_host(&host(text));
}

/// The numbers of the set are in force: with 20, 10, 5, 3 the alarm of the
/// assignment is clear after 15 times 8 ticks, and the soak takes 78 more.
#[test]
fn the_run_follows_the_calls() {
    let text = "setting control 1\nmeasurement 1 0\nbucket 1 20 10 5 3\nassign 1 1\n\
                197 x tick 0 0 0\ntick 0 0 0\n9 x tick 1 1 0\ntick 1 1 0\n";
    let lines = "    0    200     0.000    25.216  Free Run      none      ........   alarm  -      -       0
  201    210    25.344    26.496  Pre-locked    1         1.......   -      -      -       0
  211    211    26.624    26.624  Free Run      none      ........   alarm  -      -       0
";
    let run = sheet_with(&["run", "--text"], text.as_bytes()).text();
    assert_eq!(run, TITLES.to_string() + lines);
    check_host(&host(text));
}

#[test]
fn no_sheet_is_made() {
    check_no_sheet("hit\n\n2 x assign 1 2\nbucket 0 8 6 4 1\n", 3, "assign");
    check_no_sheet("bucket 0 8 6 4 1", 1, "bucket");
}

/// A text without calls is run as a sheet; the host's functions give the same
/// records.
#[test]
fn a_text_without_calls_has_the_same_records_by_the_hosts_functions() {
    let mut random = Random::new(7);
    for _ in 0..200 {
        let events = random.below(400) as usize;
        let sheet = random::sheet(&mut random, 10, events);
        let steps = sheet.steps().map(Step::Event);
        let by_host = timed(&stepped(Unit::fresh(), steps));
        assert_eq!(by_host, run(&sheet));
    }
}

/// A call that changes nothing: the records beside it are those of the sheet.
#[test]
fn a_refused_call_leaves_the_run_as_it_is() {
    let text = "setting control 1\nmeasurement 1 0\n79 x tick 0 0 0\n90 x tick 0 1 5\nhit\n";
    let sheet = make(text.as_bytes()).expect("a sheet");
    let mut records = run(&sheet);
    records.retain(|timed| timed.record.refusal == 0);
    let with_call = format!("{}assign 0 0\n", text.replace("hit", "assign 9 1\nhit"));
    let mut by_host = script(with_call.as_bytes()).expect("a text").records();
    by_host.retain(|timed| timed.record.refusal == 0);
    assert_eq!(by_host, records);
}

#[test]
fn calls_in_random_texts() {
    let mut random = Random::new(8);
    for _ in 0..100 {
        let (_, host) = with_calls(&mut random, call);
        check_host(&host);
    }
}

/// A call is written as the statement that it comes from.
#[test]
fn a_call_and_its_statement() {
    let mut random = Random::new(9);
    for _ in 0..200 {
        let call = call(&mut random);
        let steps = host(&call.to_string()).steps;
        assert_eq!(steps, [Step::Call(call)]);
    }
}

/// A call, most often one that is accepted.
fn call(random: &mut Random) -> Call {
    let set = random.below(5) as u8;
    let clear_level = random.below(9) as u8;
    let set_level = clear_level + random.below(9) as u8;
    let size = set_level.wrapping_add(random.below(9) as u8);
    let decay = random.below(5) as u8;
    let numbers = [size, set_level, clear_level, decay];
    let input = random.below(10) as u8;
    match random.below(2) {
        0 => Call::SetBucket { set, numbers },
        _ => Call::AssignBucket { input, set },
    }
}

/// A line for the calls of each tick, told in the legend; none without calls.
#[test]
fn calls_in_the_picture() {
    let drawn = |text: &str| sheet_with(&["picture", "--text"], text.as_bytes()).text();
    let line = "stroke=\"#05a\"";
    let without = drawn("20 x tick 0 0 0");
    assert!(!without.contains(line) && !texts(&without).contains(&"call"));
    let with = drawn("20 x tick 0 0 0\nbucket 1 20 10 5 3\nassign 9 1\n20 x tick 0 0 0");
    // One in the picture, one in the legend.
    assert_eq!(with.matches(line).count(), 2);
    let texts_with = texts(&with);
    for text in [
        "call",
        "call at 2.560 s: bucket 1 20 10 5 3",
        "call at 2.560 s: assign 9 1",
        "refused 6: input not 1 to 8",
        "42 records, 5.120 s, 1 refused",
    ] {
        assert!(texts_with.contains(&text), "no {}", text);
    }
    let many = drawn(&"assign 1 0\ntick 0 0 0\n".repeat(5_000));
    assert!(texts(&many).contains(&"and 4988 calls more"));
    assert!(many.len() < 70_000, "{} bytes", many.len());
}
