//! The pages: those of the examples are what the tool makes, those of every
//! sheet the model's, and form feeds stand between them.

use crate::examples::script;
use crate::files::{example, examples, examples_with, read_text};
use crate::process::{sheet, sheet_with};
use crate::random;
use shared::random::Random;
use sheet_tool::make::make;
use sheet_tool::pages::{pages, with_form_feeds};
use sheet_tool::script::Script;
use sheet_tool::sheet::Sheet;

/// The pages of a sheet, which must be those of the model.
fn checked(sheet: &Sheet) -> String {
    let records = model::records(&sheet.to_bytes()).expect("a sheet that is not refused");
    let made = pages(sheet).expect("a sheet that is not refused");
    let made = String::from_utf8(made).expect("a text");
    assert!(made == model::pages(&records), "other pages:\n{}", made);
    made
}

#[test]
fn the_pages_of_the_examples_are_the_tools() {
    let kept = examples_with(".page");
    assert!(["carton", "document-01"]
        .iter()
        .all(|name| kept.contains(&name.to_string())));
    for name in kept {
        let made = sheet(&["page", &example(&name, "txt")]).text();
        assert!(
            made == read_text(&example(&name, "page")),
            "{0}.page is not what the tool makes; \
             bin/sheet page examples/{0}.txt -o examples/{0}.page makes it so",
            name
        );
    }
}

#[test]
fn the_model_gives_the_same_pages() {
    for name in examples() {
        if let Script::Sheet(sheet) = script(&name) {
            checked(&sheet);
        }
    }
    let mut random = Random::new(6);
    for _ in 0..200 {
        let events = random.below(200) as usize;
        checked(&random::sheet(&mut random, 8, events));
    }
    checked(&random::sheet(&mut random, 256, 8_127));
}

/// What is taped into a carton: three pages, the last of them filled.
#[test]
fn the_pages_of_a_carton() {
    let text = read_text(&example("carton", "page"));
    let lines: Vec<_> = text.lines().collect();
    assert_eq!(lines.len(), 150);
    assert!(lines.iter().all(|line| line.len() == 27));
    for state in ["Free Run", "Pre-locked", "Locked", "Loss of lock"] {
        assert!(lines.iter().any(|line| line[6..18].trim_end() == state));
    }
    assert!(lines.iter().any(|line| line[22..24] == *" 8"));
    assert!(lines[149].trim().is_empty());
}

/// Between two pages, and not after the last.
#[test]
fn form_feeds_stand_between_pages() {
    for (ticks, feeds) in [(0, 0), (1, 0), (50, 0), (51, 1), (100, 1), (101, 2)] {
        let text = match ticks {
            0 => String::new(),
            ticks => format!("{} x tick 0 0 0", ticks),
        };
        let plain = sheet_with(&["page", "--text"], text.as_bytes()).text();
        assert!(plain == checked(&make(text.as_bytes()).expect("a sheet")));
        let fed = sheet_with(&["page", "--text", "--form-feed"], text.as_bytes()).text();
        assert_eq!(fed.as_bytes(), with_form_feeds(plain.as_bytes()));
        assert_eq!(fed.matches('\u{c}').count(), feeds);
        assert_eq!(fed.replace('\u{c}', ""), plain);
        for page in fed.split('\u{c}').filter(|_| ticks > 0) {
            assert_eq!(page.len(), 1_400);
        }
    }
}
