//! Texts with the calls of the busy hours: what they may say, what reaches the
//! unit, and their runs. How places in the week are written is in `places`.

use crate::files::{example, read_text};
use crate::hosts::{check_fault, check_no_sheet, host, with_calls};
use crate::process::sheet_with;
use crate::same_records::check_host;
use controller::Unit;
use shared::random::Random;
use sheet_tool::records::run;
use sheet_tool::script::{timed, Host};
use sheet_tool::step::{Call, Step};
use sheet_tool::week::Window;

/// A week in ticks.
const WEEK: u32 = 4_725_000;

/// The call of windows with these starts and ends.
fn windows(windows: &[(u32, u32)]) -> Call {
    let window = |&(start, end): &(u32, u32)| Window { start, end };
    let windows = windows.iter().map(window).collect();
    Call::SetWindows { windows }
}

/// The one call of a text.
#[track_caller]
fn call(text: &str) -> Call {
    match &host(text).steps[..] {
        [Step::Call(call)] => call.clone(),
        other => panic!("{:?}", other),
    }
}

#[test]
fn the_statements() {
    let text = "hit\nweek mon 17:58\n2 x windows mon 08:00 to mon 18:00, 0x3f to 1:00\nweek 7";
    let steps = host(text).steps;
    let week = Call::SetWeek { place: 505_313 };
    let two = windows(&[(225_000, 506_250), (63, 28_125)]);
    let last = Call::SetWeek { place: 7 };
    let calls = [&week, &two, &two, &last].map(|call| Step::Call(call.clone()));
    assert_eq!(steps[1..], calls);
    assert_eq!(week.to_string(), "week 505313");
    let told = "windows 225000 to 506250, 63 to 28125";
    assert_eq!(two.to_string(), told);
    assert_eq!(windows(&[]).to_string(), "windows none");
    let repeated = host("repeat 2\nwindows none # busy no more\nend").steps;
    let none = Step::Call(windows(&[]));
    assert_eq!(repeated, [none.clone(), none]);
}

/// Commas may stand with blanks or without.
#[test]
fn commas() {
    let two = windows(&[(1, 2), (3, 4)]);
    for text in [
        "windows 1 to 2, 3 to 4",
        "windows 1 to 2,3 to 4",
        "windows 1 to 2 ,3 to 4",
        "windows  1  to\t2 , 3 to 4 # both",
    ] {
        assert_eq!(call(text), two, "{}", text);
    }
    let days = windows(&[(225_000, 506_250), (900_000, 1_181_250)]);
    let text = "windows mon 08:00 to mon 18:00,tue 08:00 to 42:00";
    assert_eq!(call(text), days);
}

#[test]
fn faults_of_windows() {
    check_fault("windows", 1, "windows needs START");
    check_fault("hit\n2 x windows", 2, "windows needs START");
    check_fault("windows 5 to", 1, "windows needs END");
    check_fault("windows 5 to , 6 to 7", 1, "windows needs END");
    let no_to = "after START a to is missing, as in windows mon 08:00 to mon 18:00";
    for text in [
        "windows 5",
        "windows 5 6",
        "windows 5, 6 to 7",
        "windows mon 08:00",
        "windows mon 08:00 mon 18:00",
        "windows 1 to 2, 3 - 4",
        "windows 1 TO 2",
    ] {
        check_fault(text, 1, no_to);
    }
    let missing = "a window is missing beside a comma";
    for text in [
        "windows ,",
        "windows 1 to 2,",
        "windows , 1 to 2",
        "windows 1 to 2,, 3 to 4",
    ] {
        check_fault(text, 1, missing);
    }
    let many = "after END may stand a comma and the next window, not \"3\"";
    check_fault("windows 1 to 2 3 to 4", 1, many);
    check_fault("windows 5 to 6, 1 to 2 3", 1, many);
    let many = "\"3\" is one field too many for windows none";
    check_fault("windows none 3", 1, many);
    let form = "is a number of ticks, a time such as 55:30, or a day and a time such as mon 07:30";
    let start = |word| format!("START {}, not \"{}\"", form, word);
    check_fault("windows None", 1, &start("None"));
    check_fault("windows none, 1 to 2", 1, &start("none"));
    check_fault("windows to 2", 1, &start("to"));
    check_fault("windows 8-18", 1, &start("8-18"));
    let end = format!("END {}, not \"to\"", form);
    check_fault("windows 1 to to 2", 1, &end);
    let day = "after tue a time is missing, as in tue 07:30";
    check_fault("windows mon 08:00 to tue", 1, day);
    check_fault("windows tue to wed 08:00", 1, day);
    let range = "START is 0 to 4294967295, not 4294967296";
    check_fault("windows 1 to 2, 4294967296 to 5", 1, range);
    let range = "END is 0:00 to 168:00, not 168:30";
    check_fault("windows 1:00 to 168:30", 1, range);
}

/// The first `count` of windows that follow each other with a free tick between.
fn ascending(count: u32) -> Vec<(u32, u32)> {
    (0..count).map(|index| (3 * index, 3 * index + 2)).collect()
}

/// As many as the count can hold, also more than the unit takes.
#[test]
fn how_many_windows_fit() {
    for count in [1, 8, 9, 255] {
        let all = windows(&ascending(count));
        assert_eq!(call(&all.to_string()), all);
    }
    let text = windows(&ascending(256)).to_string();
    check_fault(&text, 1, "more than 255 windows");
    let text = "windows 0 to 2".to_string() + &", 0 to 2".repeat(20_000);
    check_fault(&text, 1, "more than 255 windows");
}

/// Gives the statement to the unit: the refusal, which leaves the unit as it was.
#[track_caller]
fn given(unit: &mut Unit, text: &str) -> u8 {
    let before = *unit;
    let refusal = Step::Call(call(text)).give(unit);
    assert!(refusal == 0 || *unit == before, "{}", text);
    refusal
}

#[test]
fn what_reaches_the_unit() {
    let mut unit = Unit::fresh();
    assert_eq!(given(&mut unit, "week wed 07:30"), 0);
    assert_eq!(unit.core.place, 1_560_938);
    assert_eq!(unit.windows, [0; 16]);
    let text = "windows 5 to 6, mon 08:00 to mon 18:00, 167:00 to 168:00";
    assert_eq!(given(&mut unit, text), 0);
    let mut stored = [0; 16];
    stored[..6].copy_from_slice(&[5, 6, 225_000, 506_250, 4_696_875, WEEK]);
    assert_eq!(unit.windows, stored);
    assert_eq!(unit.core.place, 1_560_938);
    let eight = windows(&ascending(8)).to_string();
    assert_eq!(given(&mut unit, &eight), 0);
    assert_eq!(unit.windows[12..], [18, 20, 21, 23]);
    assert_eq!(given(&mut unit, "windows 9 to 10"), 0);
    assert_eq!(unit.windows[..4], [9, 10, 0, 0]);
    assert_eq!(given(&mut unit, "windows none"), 0);
    assert_eq!(unit.windows, [0; 16]);
}

/// What the unit turns down is no fault of the text.
#[test]
fn refused_calls() {
    let mut unit = Unit::fresh();
    assert_eq!(given(&mut unit, "windows 100 to 200"), 0);
    let nine = windows(&ascending(9)).to_string();
    let most = windows(&ascending(255)).to_string();
    for text in [
        "week 168:00",
        "week sun 24:00",
        "week 4294967295",
        "windows 5 to 5",
        "windows tue 08:00 to 18:00",
        "windows 5 to 4725001",
        "windows 1 to 2, 2 to 3",
        "windows 5 to 6, 1 to 2",
        "windows 0:00 to 168:00",
        "windows mon 00:00 to mon 08:00, sun 22:00 to sun 24:00",
        &nine,
        &most,
    ] {
        assert_eq!(given(&mut unit, text), 16, "{}", text);
    }
    assert_eq!(given(&mut unit, "week 4724999"), 0);
    let text = format!("week 168:00\n{}\nwindows none\ntick 0 0 0\n", nine);
    let lines = "\
first   last    from s      to s  state         selected  qualified  alarm  Ready  backup  refusal
    0      1     0.000     0.000  Free Run      none      ........   alarm  -      -       16 place 4,725,000 or more, over eight windows, or windows out of their bounds
    2      3     0.000     0.128  Free Run      none      ........   alarm  -      -       0
";
    let run = sheet_with(&["run", "--text"], text.as_bytes()).text();
    assert_eq!(run, lines);
}

#[test]
fn no_sheet_is_made() {
    check_no_sheet("hit\nweek 5\nwindows none\n", 2, "week");
    check_no_sheet("2 x windows none\nassign 1 0", 1, "windows");
}

/// A call of the busy hours, about the places up to 400, most often accepted.
fn random_call(random: &mut Random) -> Call {
    let place = random.below(400);
    if random.one_in(3) {
        let any = random.word() as u32;
        let place = random.pick(&[place, place, WEEK - place, any]);
        return Call::SetWeek { place };
    }
    let count = 2 * random.below(10);
    let mut bounds: Vec<_> = (0..count).map(|_| random.below(400)).collect();
    if !random.one_in(8) {
        bounds.sort_unstable();
    }
    let pairs: Vec<_> = bounds.chunks(2).map(|pair| (pair[0], pair[1])).collect();
    windows(&pairs)
}

/// A call is written as the statement that it comes from.
#[test]
fn a_call_and_its_statement() {
    let mut random = Random::new(15);
    for _ in 0..1_000 {
        let random_call = random_call(&mut random);
        assert_eq!(call(&random_call.to_string()), random_call);
    }
}

#[test]
fn calls_in_random_texts() {
    let mut random = Random::new(16);
    for _ in 0..100 {
        let (_, host) = with_calls(&mut random, random_call);
        check_host(&host);
    }
}

/// The place alone changes no record.
#[test]
fn a_week_without_windows_changes_nothing() {
    let mut random = Random::new(17);
    let week = |random: &mut Random| Call::SetWeek {
        place: random.below(WEEK),
    };
    for _ in 0..100 {
        let (sheet, host) = with_calls(&mut random, week);
        let records = timed(&host.moments()).into_iter().zip(&host.steps);
        let events = records.filter(|(_, step)| step.call().is_none());
        assert!(events.map(|(timed, _)| timed).eq(run(&sheet)));
    }
}

/// 279 ticks after these calls: input 2 is selected in tick 79, and input 1 is
/// available from tick 158 on.
fn reversion(calls: &str) -> String {
    let settings = "setting control 1\nsetting delay 0\nsetting input-2 0x09\n";
    let ticks = "measurement 2 0\n79 x tick 0 0 0\nmeasurement 1 0\n200 x tick 0 1 0\n";
    [settings, calls, ticks].concat()
}

/// The ticks in which another reference is selected, and which.
fn switches(text: &str) -> Vec<(u64, u8)> {
    let host = host(text);
    check_host(&host);
    let mut switches = vec![(0, 0)];
    for timed in timed(&host.moments()) {
        let selected = timed.record.selected();
        if switches.last().map(|switch| switch.1) != Some(selected) {
            switches.push((timed.ticks, selected));
        }
    }
    switches.split_off(1)
}

/// The switch comes in the first tick outside a window, here or beyond the
/// week's end; the first selection is no reversion.
#[test]
fn the_run_follows_the_calls() {
    for (calls, tick) in [
        ("week 5\n", 158),
        ("windows none\n", 158),
        ("windows 0 to 157\n", 158),
        ("windows 0 to 158\n", 159),
        ("windows 0 to 250\n", 251),
        ("windows 150 to 200\n", 201),
        ("windows 158 to 250\n", 158),
        ("windows 100 to 200, 201 to 210\n", 201),
        ("week 1:00\nwindows 0 to 250\n", 158),
        ("week 4724900\nwindows 4724950 to 4725000\n", 158),
        ("week 4724900\nwindows 0 to 99, 4724950 to 4724999\n", 200),
        ("week 167:59\nwindows 167:59 to sun 24:00\n", 0),
        ("windows 0 to 250\nwindows none\n", 158),
        ("windows 0 to 250\nwindows 5 to 5\n", 251),
        ("windows 0 to 250\nweek 168:00\n", 251),
        ("windows 0 to 250\ntick 0 0 200000000\n", 251),
    ] {
        let expected = match tick {
            0 => vec![(79, 2)],
            tick => vec![(79, 2), (tick, 1)],
        };
        assert_eq!(switches(&reversion(calls)), expected, "{}", calls);
    }
}

/// Windows and place may be set anew while a window blocks.
#[test]
fn calls_in_a_window() {
    let text = reversion("windows 0 to 1000\n");
    for call in ["windows none", "windows 0 to 5", "week 999\nweek 1000"] {
        let text = format!("{}{}\n2 x tick 0 1 0\n", text, call);
        assert_eq!(switches(&text), [(79, 2), (280, 1)], "{}", call);
    }
    let text = text + "week 0\nwindows 0 to 5\n9 x tick 0 1 0\n";
    assert_eq!(switches(&text), [(79, 2), (285, 1)]);
}

/// A selected reference that is lost is left at once, in a window too.
#[test]
fn a_lost_reference_is_left_in_a_window() {
    let text = reversion("windows 0 to 1000\n") + "6 x tick 2 1 0\n";
    assert_eq!(switches(&text), [(79, 2), (285, 1)]);
}

/// The reversion wait before the first tick, and then after each.
fn waits(host: &Host) -> Vec<u32> {
    let mut unit = Unit::fresh();
    let mut waits = vec![unit.core.choice.wait];
    for step in &host.steps {
        let refusal = step.give(&mut unit);
        if step.ticks(refusal) > 0 {
            waits.push(unit.core.choice.wait);
        }
    }
    waits
}

/// What the example says of the switches and of the wait; without its windows
/// the unit goes back to input 1 when the wait is over.
#[test]
fn the_example() {
    let text = read_text(&example("busy-hours", "txt"));
    let told = [(79, 1), (166, 2), (938, 1), (1_066, 2), (1_706, 1)];
    assert_eq!(switches(&text), told);
    let waits = waits(&host(&text));
    for (tick, wait) in [
        (247, 0),
        (248, 1),
        (716, 469),
        (717, 470),
        (937, 470),
        (938, 0),
        (1_148, 1),
        (1_617, 470),
        (1_705, 470),
        (1_706, 0),
    ] {
        assert_eq!(waits[tick], wait, "tick {}", tick);
    }
    let without = text.replace("\nwindows ", "\nwindows none # ");
    let over = [(79, 1), (166, 2), (717, 1), (1_066, 2), (1_617, 1)];
    assert_eq!(switches(&without), over);
}
