//! Measurements in 1/64 ppm: how they are written, and their runs beside those
//! in 0.5 ppm.

use crate::examples::script;
use crate::process::sheet_with;
use crate::random;
use crate::same_records;
use controller::{FINER_MEASUREMENT, MEASUREMENT};
use shared::random::Random;
use sheet_tool::event::Event;
use sheet_tool::make::make;
use sheet_tool::number::{ppm, steps};
use sheet_tool::records::run;
use sheet_tool::sheet::Sheet;
use sheet_tool::show::show;

fn made(text: &str) -> Sheet {
    make(text.as_bytes()).unwrap_or_else(|fault| panic!("{:?} in\n{}", fault, text))
}

/// The statement has so many steps, and `show` writes it as in `shown`.
#[track_caller]
fn check(statement: &str, input: u8, steps: i16, shown: &str) {
    let sheet = made(statement);
    let event = Event::finer_measurement(input, steps);
    assert_eq!(sheet.events, [event], "{}", statement);
    let shown = format!("{}\n", shown);
    assert!(show(&sheet).ends_with(&shown), "{}", show(&sheet));
}

#[test]
fn the_statements() {
    let half = "measurement 3 0.5 ppm";
    for offset in [
        "0.5",
        "0.50",
        "00.5",
        "0.5000000",
        "0.5000000000000000000000000",
    ] {
        check(&format!("measurement 3 {} ppm", offset), 3, 32, half);
    }
    for offset in ["32", "0x20", "032"] {
        check(&format!("measurement 3 {} steps", offset), 3, 32, half);
    }
    let zero = "measurement 255 0 ppm";
    for offset in [
        "0 ppm",
        "-0 ppm",
        "0.0 ppm",
        "-0.000 ppm",
        "0 steps",
        "-0x0 steps",
    ] {
        check(&format!("measurement 0xff {}", offset), 255, 0, zero);
    }
    for (offset, steps) in [
        ("0.484375", 31),
        ("-0.015625", -1),
        ("-12.5", -800),
        ("3", 192),
        ("100", 6_400),
        ("-512", -32_768),
        ("511.984375", 32_767),
    ] {
        let statement = format!("measurement 0 {} ppm", offset);
        check(&statement, 0, steps, &statement);
        let in_steps = format!("measurement 0 {} steps", steps);
        check(&in_steps, 0, steps, &statement);
    }
}

/// The input in a, b 0 and the offset in the word.
#[test]
fn the_fields_of_an_event() {
    let fields = |text| made(text).events[0].to_bytes();
    let bytes = fields("measurement 3 0.484375 ppm");
    assert_eq!(bytes, [4, 3, 0, 0, 31, 0, 0, 0]);
    let bytes = fields("measurement 8 -512 ppm");
    assert_eq!(bytes, [4, 8, 0, 0, 0, 0x80, 0xff, 0xff]);
}

/// Of any length, if all other digits are zeros.
#[test]
fn long_numbers() {
    let zeros = "0".repeat(100_000);
    let shown = "measurement 1 -0.484375 ppm";
    let statement = format!("measurement 1 -{0}.484375{0} ppm", zeros);
    check(&statement, 1, -31, shown);
    check(&format!("measurement 1 -{}31 steps", zeros), 1, -31, shown);
    let shown = "measurement 1 511 ppm";
    check(&format!("measurement 1 {}511 ppm", zeros), 1, 32_704, shown);
}

/// Every step is read as it is written, with no digit too many.
#[test]
fn every_step_and_its_ppm() {
    for number in i64::from(i16::MIN)..=i64::from(i16::MAX) {
        let text = ppm(number);
        assert_eq!(steps(&text), Some((number, number)), "{}", text);
        assert_eq!(number % 64 != 0, text.contains('.'), "{}", text);
        assert!(number % 64 == 0 || !text.ends_with('0'), "{}", text);
        assert_eq!(number < 0, text.starts_with('-'), "{}", text);
    }
}

/// n / 10^k ppm is 64 n / 10^k steps, rounded down and up.
#[test]
fn the_steps_next_to_random_numbers() {
    let mut random = Random::new(13);
    for _ in 0..100_000 {
        let digits = random.below(13);
        let scale = 10_i64.pow(digits);
        let any = i64::from(random.below(scale.min(1_000_000) as u32));
        let beside = random.pick(&[-1, 0, 1, any]);
        let at_a_step = scale * i64::from(random.below(40_000)) / 64;
        let magnitude = (at_a_step + beside).max(0);
        let (sign, minus) = random.pick(&[(1, ""), (-1, "-")]);
        let (whole, part) = (magnitude / scale, magnitude % scale);
        let text = match digits as usize {
            0 => format!("{}{}", minus, whole),
            digits => format!("{}{}.{:0width$}", minus, whole, part, width = digits),
        };
        let number = 64 * sign * magnitude;
        let next = (number.div_euclid(scale), -(-number).div_euclid(scale));
        assert_eq!(steps(&text), Some(next), "{}", text);
    }
}

/// Whether input 1 is qualified 79 good ticks after these measurements of it,
/// all with this sign.
#[track_caller]
fn check_qualified(sign: &str, offsets: &[&str], qualified: bool) {
    let measurement = |offset| format!("measurement 1 {}{}\n", sign, offset);
    let text: String = offsets.iter().map(measurement).collect();
    let sheet = made(&(text.clone() + "79 x tick 0 0 0"));
    same_records::check(&sheet);
    let last = run(&sheet).pop().expect("a record");
    assert_eq!(last.record.qualified, u8::from(qualified), "{}", text);
}

/// At the limits of a fresh unit, 12.5 and 15.5 ppm, a step makes the
/// difference.
#[test]
fn a_step_over_a_limit() {
    for (offsets, qualified) in [
        (&["12.5 ppm"][..], true),
        (&["800 steps"], true),
        (&["25"], true),
        (&["12.515625 ppm"], false),
        (&["801 steps"], false),
        (&["0", "12.515625 ppm"], true),
        (&["0 ppm", "15.5 ppm"], true),
        (&["0 steps", "992 steps"], true),
        (&["0", "31"], true),
        (&["0", "15.515625 ppm"], false),
        (&["0", "993 steps"], false),
        (&["0", "511.984375 ppm"], false),
        (&["0", "15.515625 ppm", "31", "12.515625 ppm"], false),
        (&["15.515625 ppm", "12.5 ppm"], true),
        (&["511 ppm", "25"], true),
    ] {
        for sign in ["", "-"] {
            check_qualified(sign, offsets, qualified);
        }
    }
    check_qualified("-", &["0", "512 ppm"], false);
}

/// A measurement of the old kind is one of 32 times as many steps.
#[test]
fn the_old_kind_in_steps() {
    let mut random = Random::new(14);
    for _ in 0..200 {
        let events = random.below(400) as usize;
        let mut sheet = random::sheet(&mut random, 10, events);
        let records = run(&sheet);
        for event in &mut sheet.events {
            if event.kind == MEASUREMENT {
                *event = Event::finer_measurement(event.a, 32 * i16::from(event.b as i8));
            }
        }
        assert_eq!(run(&sheet), records);
    }
}

/// What the example says of the old counter: with its readings rounded to 0.5
/// ppm input 1 is the first to be selected, and is never left.
#[test]
fn the_example_with_readings_of_the_old_kind() {
    let selected = |sheet: &Sheet| {
        let selected = run(sheet).into_iter().map(|timed| timed.record.selected());
        let mut selected: Vec<_> = selected.collect();
        selected.dedup();
        selected
    };
    let mut sheet = script("finer-readings").into_sheet().expect("no calls");
    assert_eq!(selected(&sheet), [0, 2, 1, 2, 1]);
    for event in &mut sheet.events {
        if event.kind == FINER_MEASUREMENT {
            let rounded = (event.word + 16).div_euclid(32);
            *event = Event::short(MEASUREMENT, event.a, rounded as u8);
        }
    }
    assert_eq!(selected(&sheet), [0, 1]);
}

/// Each command takes them, in a text and in a sheet.
#[test]
fn by_the_program() {
    let text = "setting control 1\nmeasurement 9 0 ppm\nmeasurement 1 12.515625 ppm\n\
                79 x tick 0 0 0\nmeasurement 1 800 steps\n79 x tick 0 0 0\n";
    let made = sheet_with(&["make"], text.as_bytes());
    assert_eq!((made.status, made.message.as_str()), (Some(0), ""));
    for command in ["show", "run", "page", "picture"] {
        let of_sheet = sheet_with(&[command], &made.output).text();
        let of_text = sheet_with(&[command, "--text"], text.as_bytes()).text();
        assert_eq!(of_sheet, of_text);
    }
    let lines = "\
first   last    from s      to s  state         selected  qualified  alarm  Ready  backup  refusal
    0      0     0.000     0.000  Free Run      none      ........   alarm  -      -       0
    1      1     0.000     0.000  Free Run      none      ........   alarm  -      -       6 input not 1 to 8
    2    160     0.000    20.096  Free Run      none      ........   alarm  -      -       0
  161    161    20.224    20.224  Pre-locked    1         1.......   -      -      -       0
";
    assert_eq!(sheet_with(&["run"], &made.output).text(), lines);
}
