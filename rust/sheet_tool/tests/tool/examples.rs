//! The examples: their sheets and records. Their comments are in `stories`.

use crate::files::{example, examples, examples_with, read};
use crate::process::sheet;
use crate::round_trip;
use crate::same_records;
use sheet_tool::script::Script;
use sheet_tool::table::table;
use std::fs;

/// What an example says.
pub fn script(name: &str) -> Script {
    let text = read(&example(name, "txt"));
    sheet_tool::make::script(&text).unwrap_or_else(|fault| panic!("{}: {:?}", name, fault))
}

#[test]
fn each_has_the_records_beside_it() {
    for name in examples() {
        let command = format!(
            "bin/sheet run examples/{0}.txt -o examples/{0}.records",
            name
        );
        let records = fs::read_to_string(example(&name, "records"))
            .unwrap_or_else(|error| panic!("{}.records: {}; {} makes it", name, error, command));
        let run = table(&script(&name).records(), false);
        assert!(
            run == records,
            "{}.records is not what the run gives, which is\n{}{} makes it so",
            name,
            run,
            command
        );
        assert_eq!(sheet(&["run", &example(&name, "txt")]).text(), records);
    }
}

#[test]
fn no_records_and_no_page_are_without_their_text() {
    let texts = examples();
    for ending in [".records", ".page"] {
        for name in examples_with(ending) {
            assert!(texts.contains(&name), "{}{}", name, ending);
        }
    }
}

#[test]
fn the_model_gives_the_same_records() {
    for name in examples() {
        match script(&name) {
            Script::Sheet(sheet) => same_records::check(&sheet),
            Script::Host(host) => same_records::check_host(&host),
        }
    }
}

#[test]
fn each_is_shown_and_made_again() {
    for name in examples() {
        if let Script::Sheet(sheet) = script(&name) {
            round_trip::check(&sheet.to_bytes());
        }
    }
}

#[test]
fn the_sheet_of_document_01() {
    let bytes = read(&example("document-01", "sheet"));
    let made = script("document-01").into_sheet().expect("no calls");
    assert_eq!(made.to_bytes(), bytes);
    let outcome = sheet(&["make", &example("document-01", "txt")]);
    assert_eq!((outcome.status, outcome.output), (Some(0), bytes));
    for command in ["show", "run", "page"] {
        let from_sheet = sheet(&[command, &example("document-01", "sheet")]);
        assert_eq!(
            from_sheet,
            sheet(&[command, &example("document-01", "txt")])
        );
    }
}

#[test]
fn all_records_have_a_line_each() {
    for name in examples() {
        let text = sheet(&["run", "--all", &example(&name, "txt")]).text();
        let lines = text.lines().skip(1);
        assert_eq!(lines.clone().count(), script(&name).records().len());
        for (index, line) in lines.enumerate() {
            let index = index.to_string();
            let mut words = line.split_whitespace();
            assert_eq!(words.next(), Some(index.as_str()));
            assert_eq!(words.next(), Some(index.as_str()));
        }
    }
}
