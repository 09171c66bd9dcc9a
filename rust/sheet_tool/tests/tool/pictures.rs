//! The pictures: those in `docs/pictures` are what the tool makes, and every
//! picture is well-formed and has its rows.

use crate::files::{example, examples, names_in, read_text, repository};
use crate::process::sheet;
use crate::random;
use crate::xml::texts;
use shared::random::Random;
use sheet_tool::make::make;
use sheet_tool::picture::picture;
use sheet_tool::records::run;
use sheet_tool::sheet::Sheet;
use sheet_tool::stepped::moments;

fn drawn(title: &str, sheet: &Sheet) -> String {
    let moments = moments(sheet, &run(sheet)).expect("no difference");
    picture(title, &moments)
}

fn check(svg: &str) -> Vec<&str> {
    let texts = texts(svg);
    let inputs = (1..=8).map(|input| format!("input {}", input));
    let names = ["selected", "state", "Ready", "refused", "seconds"];
    for name in names.iter().map(|name| name.to_string()).chain(inputs) {
        assert!(texts.contains(&name.as_str()), "no row {}", name);
    }
    for name in controller::STATES {
        assert!(texts.contains(&name), "no state {}", name);
    }
    texts
}

#[test]
fn the_pictures_of_the_repository_are_the_tools() {
    let names = names_in("docs/pictures", ".svg");
    assert!(!names.is_empty());
    for name in names {
        let made = sheet(&["picture", &example(&name, "txt")]).text();
        let committed = read_text(&repository(&format!("docs/pictures/{}.svg", name)));
        assert!(made == committed, "docs/pictures/{}.svg is another", name);
    }
}

#[test]
fn examples_have_all_rows_and_their_story() {
    for name in examples() {
        let svg = sheet(&["picture", &example(&name, "txt")]).text();
        assert!(check(&svg).contains(&name.as_str()));
    }
    let svg = sheet(&["picture", &example("lock-alarm", "txt")]).text();
    let texts = check(&svg);
    for text in [
        "19.968",
        "119.936",
        "230.016",
        "Loss of lock",
        "none",
        "1",
        "2",
    ] {
        assert!(texts.contains(&text), "no {}", text);
    }
    let svg = sheet(&["picture", &example("history-commands", "txt")]).text();
    let texts = check(&svg);
    for text in ["8", "3", "refused 3: value above the register's largest"] {
        assert!(texts.contains(&text), "no {}", text);
    }
}

#[test]
fn a_sheet_and_its_text_have_the_same_picture() {
    let of_sheet = sheet(&["picture", &example("document-01", "sheet")]).text();
    assert_eq!(
        of_sheet,
        sheet(&["picture", &example("document-01", "txt")]).text()
    );
    assert!(check(&of_sheet).contains(&"3 records, 0.128 s, 1 refused"));
}

#[test]
fn random_sheets_are_drawn() {
    let mut random = Random::new(4);
    for _ in 0..200 {
        let events = random.below(300) as usize;
        let sheet = random::sheet(&mut random, 8, events);
        check(&drawn("random", &sheet));
    }
    check(&drawn("nothing", &Sheet::default()));
}

/// Everything changes in every tick, in a sheet that is nearly full.
#[test]
fn a_busy_picture_stays_small() {
    let mut text = "setting control 1\n".to_string();
    for input in 1..=8 {
        text += &format!("measurement {} 0\n", input);
    }
    text += "95 x tick 0 1 0\nrepeat 1600\n";
    for mask in ["0xaa", "0x55"] {
        text += &format!("write mask {}\ntick 0 1 0\n", mask);
    }
    text += "hit\nend\n";
    let sheet = make(text.as_bytes()).expect("a sheet");
    assert!(sheet.events.len() > 8_000);
    let svg = drawn("busy", &sheet);
    check(&svg);
    assert!(svg.len() < 70_000, "{} bytes", svg.len());
    let longest = random::sheet(&mut Random::new(5), 256, 8_127);
    let svg = drawn("longest", &longest);
    check(&svg);
    assert!(svg.len() < 70_000, "{} bytes", svg.len());
}

#[test]
fn any_title_is_well_formed() {
    let svg = drawn("a<b>&\"\u{7}\u{ffff}", &Sheet::default());
    assert!(check(&svg).contains(&"a&lt;b&gt;&amp;\"??"));
    let long = "m".repeat(10_000);
    check(&drawn(&long, &Sheet::default()));
    let svg = sheet(&["picture", "--text", "/dev/null"]).text();
    assert!(check(&svg).contains(&"null"));
}

/// The stepped unit is compared with the records of the run.
#[test]
fn a_difference_is_an_error() {
    let sheet = make(b"tick 0 0 0\nhit").expect("a sheet");
    let mut records = run(&sheet);
    records[1].record.refusal = 0;
    let reason = moments(&sheet, &records).expect_err("a difference");
    assert!(
        reason.starts_with("record 1 differs: the run has Record"),
        "{}",
        reason
    );
}
