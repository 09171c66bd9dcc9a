//! Texts that begin with a table of fresh values: what they may say, their runs
//! and pictures, tables that do not load, and that no sheet is made of them.

use crate::hosts::{check_failed, check_fault, check_no_sheet, host};
use crate::process::sheet_with;
use crate::random::{self, slot};
use crate::same_records::check_host;
use crate::xml::texts;
use controller::{Unit, REGISTERS};
use model::STANDARD_TABLE as STANDARD;
use shared::random::Random;
use sheet_tool::make::script;
use sheet_tool::registers::address;
use sheet_tool::show::show;

/// Some registers.
const FREE_RUN: u8 = 0x24;
const COMMAND: u8 = 0x26;
const HOURS: u8 = 0x27;
const CONTROL: u8 = 0x40;
const REJECT: u8 = 0x44;
const QUALIFICATION: u8 = 0x45;
const COUNT: u8 = 0x4e;

/// The standard table with other values of these registers.
fn table(values: &[(u8, u8)]) -> [u8; REGISTERS] {
    let mut table = STANDARD;
    let set = |&(address, value): &(u8, u8)| table[slot(address)] = value;
    values.iter().for_each(set);
    table
}

/// The statement of these values.
fn statement(values: &[u8]) -> String {
    let words: Vec<_> = values.iter().map(u8::to_string).collect();
    format!("table {}\n", words.join(" "))
}

#[test]
fn a_table_goes_over_lines() {
    let text = "# a buyer's own\n\
                table 1 0x02 8 8 0 0 0 0     # 0x1c to 0x23\n\
                table 0 0 0 0             # 0x24 to 0x27\n\
                \n\
                table 1 0 3 1 31 25\n\
                table 0 0 0 0 0 0 0 0 0\n\
                hit\n";
    let own = [
        1, 2, 8, 8, 0, 0, 0, 0, 0, 0, 0, 0, 1, 0, 3, 1, 31, 25, 0, 0, 0, 0, 0, 0, 0, 0, 0,
    ];
    let host_of_lines = host(text);
    assert_eq!(host_of_lines.table.as_deref(), Some(&own[..]));
    assert_eq!(host_of_lines.steps.len(), 1);
    let in_one_line = host(&(statement(&own) + "hit"));
    assert_eq!(in_one_line.table, host_of_lines.table);
    assert_eq!(in_one_line.steps, host_of_lines.steps);
    assert_eq!(host("assign 1 0").table, None);
}

#[test]
fn faults() {
    check_fault("table", 1, "table needs VALUE");
    check_fault("table 1 2\ntable # 3", 2, "table needs VALUE");
    check_fault("table 0 256", 1, "VALUE is 0 to 255, not 256");
    check_fault("table 0 -1", 1, "VALUE is 0 to 255, not -1");
    let no_number = "VALUE is a number, not \"control\"";
    check_fault("table 0\ntable 0 control", 2, no_number);
    check_fault("2 x table 0", 1, "table takes no count in front");
    let late = "a table after another statement; it stands before all others";
    for other in [
        "setting control 1",
        "tick 0 0 0",
        "hit",
        "assign 1 0",
        "repeat 2\nend",
        "repeat 2",
    ] {
        let text = format!(
            "{}{}\n{}",
            statement(&STANDARD),
            other,
            statement(&STANDARD)
        );
        check_fault(&text, 2 + other.lines().count(), late);
    }
    // What a line says is at fault before the table that the lines make.
    check_fault("table 1 2\ntock", 2, &unknown("tock"));
}

fn unknown(word: &str) -> String {
    let reason = script(word.as_bytes()).expect_err("a fault").reason;
    assert!(reason.starts_with("unknown word"));
    reason
}

/// What is said of a table that does not load.
fn refused(at_fault: &str) -> String {
    format!(
        "table refused with 15: table not 27 bytes, a forbidden nonzero, a value above the \
         register's largest, or reject - qualification under 6 ({})",
        at_fault
    )
}

fn length(bytes: usize) -> String {
    format!("length {}", bytes)
}

/// The line is that of the first value at fault; the last if there is none.
#[test]
fn tables_that_do_not_load() {
    for (values, at_fault) in [
        (&[(COMMAND, 3)][..], "history-command 3"),
        (&[(HOURS, 1)], "hours 1"),
        (&[(COUNT, 255), (HOURS, 1)], "hours 1, count 255"),
        (&[(CONTROL, 2), (FREE_RUN, 32)], "free-run 32, control 2"),
        (&[(REJECT, 30)], "reject 30, qualification 25"),
        (&[(QUALIFICATION, 26)], "reject 31, qualification 26"),
        (&[(REJECT, 128)], "reject 128"),
        (&[(QUALIFICATION, 200)], "qualification 200"),
        (
            &[(REJECT, 20), (CONTROL, 255)],
            "control 255, reject 20, qualification 25",
        ),
    ] {
        let table = table(values);
        check_fault(&statement(&table), 1, &refused(at_fault));
        let in_lines = statement(&table[..8]) + "\n" + &statement(&table[8..]) + "hit";
        check_fault(&in_lines, 3, &refused(at_fault));
    }
    let short = statement(&STANDARD[1..]);
    check_fault(&short, 1, &refused(&length(REGISTERS - 1)));
    let long = format!("{}table 0 # one more\nhit", statement(&STANDARD));
    check_fault(&long, 2, &refused(&length(REGISTERS + 1)));
    check_fault("table 0", 1, &refused(&length(1)));
}

/// Each value at fault is named, and no other. With any bytes, the table loads
/// once those named are as in the standard one, both limits if one is named.
/// Each of the others named is turned down alone, and the limits, if one is
/// named, together.
#[test]
fn all_values_at_fault_are_named() {
    let mut random = Random::new(10);
    for _ in 0..2_000 {
        let byte = |random: &mut Random| random.byte() & random.pick(&[0, 0, 1, 0x1f, 0xff]);
        let values = STANDARD.map(|standard| {
            let other = byte(&mut random);
            random.pick(&[standard, standard, other])
        });
        let reason = match script(statement(&values).as_bytes()) {
            Ok(_) => continue,
            Err(fault) => fault.reason,
        };
        let (_, told) = reason.rsplit_once('(').expect("what is at fault");
        let mut repaired = values;
        let limits = [REJECT, QUALIFICATION].map(slot);
        for named in told.trim_end_matches(')').split(", ") {
            let (name, value) = named.split_once(' ').expect("a name and a value");
            let slot = slot(address(name).expect("a register's name"));
            assert_eq!(values[slot].to_string(), value);
            let at_fault = match limits.contains(&slot) {
                true => &limits[..],
                false => &[slot],
            };
            let mut alone = STANDARD;
            for &slot in at_fault {
                alone[slot] = values[slot];
                repaired[slot] = STANDARD[slot];
            }
            assert_eq!(Unit::fresh().load(&alone), 15, "{}", named);
        }
        assert_eq!(
            host(&statement(&repaired)).table.as_deref(),
            Some(&repaired[..])
        );
    }
}

/// A table that does not load is a fault of the text: nothing is written.
#[test]
fn nothing_is_written_for_a_table_that_does_not_load() {
    let text = format!("\n{}hit\n", statement(&table(&[(HOURS, 1)])));
    let commands = ["run", "picture", "make", "show", "page"];
    let reason = refused("hours 1");
    check_failed("refused-table", &commands, &text, 2, &reason);
}

#[test]
fn no_sheet_is_made() {
    let text = format!("# own\n{}assign 1 0\nhit\n", statement(&STANDARD));
    check_no_sheet(&text, 2, "table");
}

/// The unit wakes in automatic control, and the table has no record.
#[test]
fn the_run_begins_with_the_loaded_unit() {
    let text =
        statement(&table(&[(CONTROL, 1)])) + "measurement 1 0\n79 x tick 0 0 0\n16 x tick 0 1 0\n";
    let lines = "\
first   last    from s      to s  state         selected  qualified  alarm  Ready  backup  refusal
    0     78     0.000     9.984  Free Run      none      ........   alarm  -      -       0
   79     94    10.112    12.032  Pre-locked    1         1.......   -      -      -       0
   95     95    12.160    12.160  Locked        1         1.......   -      -      -       0
";
    assert_eq!(
        sheet_with(&["run", "--text"], text.as_bytes()).text(),
        lines
    );
    check_host(&host(&text));
    let svg = sheet_with(&["picture", "--text"], text.as_bytes()).text();
    assert!(texts(&svg).contains(&"96 records, 12.160 s, none refused"));
    let alone = sheet_with(&["run", "--text"], statement(&STANDARD).as_bytes()).text();
    assert_eq!(alone.lines().count(), 1);
}

/// A sheet's limits are not for a text with a table; that of a text with calls
/// is, settings included.
#[test]
fn limits() {
    let long = statement(&STANDARD) + "300 x setting control 1\n60000 x tick 0 0 0";
    assert_eq!(host(&long).steps.len(), 60_300);
    let settings = |times| statement(&STANDARD) + &"50000 x setting control 1\n".repeat(times);
    assert_eq!(host(&settings(20)).steps.len(), 1_000_000);
    let reason = "there would be more than 1,000,000 records";
    check_fault(&settings(21), 22, reason);
    check_fault(&(settings(20) + "hit"), 22, reason);
}

/// With document 01's own values the records are those of the sheet without.
#[test]
fn the_standard_table_changes_nothing() {
    let mut random = Random::new(11);
    for _ in 0..50 {
        let events = random.below(400) as usize;
        let text = show(&random::sheet(&mut random, 10, events));
        let records = |text: &str| script(text.as_bytes()).expect("a text").records();
        assert_eq!(records(&(statement(&STANDARD) + &text)), records(&text));
    }
}

/// Tables over any lines, and any events after them.
#[test]
fn tables_in_random_texts() {
    let mut random = Random::new(12);
    for _ in 0..200 {
        let table = random::table(&mut random);
        let mut text = String::new();
        let mut rest = &table[..];
        while !rest.is_empty() {
            let (line, others) = rest.split_at(random.between(1, rest.len() as u32) as usize);
            text += &statement(line);
            text += random.pick(&["", "\n", "# more of it\n"]);
            rest = others;
        }
        let events = random.below(400) as usize;
        let sheet = random::sheet(&mut random, 10, events);
        let host = host(&(text + &show(&sheet)));
        assert_eq!(host.table.as_deref(), Some(&table[..]));
        assert_eq!(host.steps.len(), sheet.steps().count());
        check_host(&host);
    }
}
