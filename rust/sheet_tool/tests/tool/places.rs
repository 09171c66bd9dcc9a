//! Places in the week as a text has them: ticks, times from the week's start, and
//! days with a time; and what is no place.

use crate::hosts::{check_fault, host};
use sheet_tool::step::{Call, Step};
use sheet_tool::time::TICK_MS;
use sheet_tool::week::DAYS;

/// A week in ticks.
const WEEK: u32 = 4_725_000;

/// A place in ticks.
#[track_caller]
fn place(text: &str) -> u32 {
    let text = format!("week {}", text);
    match host(&text).steps[..] {
        [Step::Call(Call::SetWeek { place })] => place,
        ref other => panic!("{:?}", other),
    }
}

#[test]
fn places() {
    for (text, ticks) in [
        ("0", 0),
        ("007", 7),
        ("0x481908", WEEK),
        ("4725000", WEEK),
        ("4294967295", u32::MAX),
        ("0xffffffff", u32::MAX),
        ("0:00", 0),
        ("00:01", 469),
        ("0:02", 938),
        ("0:03", 1_407),
        ("0:04", 1_875),
        ("1:00", 28_125),
        ("55:30", 1_560_938),
        ("055:30", 1_560_938),
        ("167:59", 4_724_532),
        ("168:00", WEEK),
        ("mon 00:00", 0),
        ("mon 0:00", 0),
        ("mon 07:30", 210_938),
        ("mon 7:30", 210_938),
        ("mon 17:58", 505_313),
        ("mon 18:00", 506_250),
        ("mon 24:00", 675_000),
        ("tue 00:00", 675_000),
        ("wed 07:30", 1_560_938),
        ("sun 23:59", 4_724_532),
        ("sun 24:00", WEEK),
    ] {
        assert_eq!(place(text), ticks, "{}", text);
        let window = format!("windows {0} to {0}", text);
        let told = format!("windows {0} to {0}", ticks);
        assert_eq!(host(&window).steps, host(&told).steps);
    }
}

/// The ticks of a minute are the least that last as long, 128 ms each: from the
/// week's start, by its day, and of a midnight by the day before too.
#[test]
fn every_minute_of_the_week() {
    for minute in 0..=10_080 {
        let (hours, minutes) = (minute / 60, minute % 60);
        let ticks = place(&format!("{}:{:02}", hours, minutes));
        let ms = 60_000 * minute as u64;
        let lasting = |ticks: u32| TICK_MS * u64::from(ticks);
        assert!(lasting(ticks) >= ms, "{}", minute);
        assert!(ticks == 0 || lasting(ticks - 1) < ms, "{}", minute);
        let by_day = |day: usize, hours: usize| {
            let time = format!("{} {:02}:{:02}", DAYS[day], hours, minutes);
            assert_eq!(place(&time), ticks, "{}", time);
        };
        let (day, hour) = (hours / 24, hours % 24);
        if minute < 10_080 {
            by_day(day, hour);
        }
        if minute > 0 && (hour, minutes) == (0, 0) {
            by_day(day - 1, 24);
        }
    }
}

#[test]
fn faults_of_places() {
    check_fault("week", 1, "week needs PLACE");
    check_fault("\n3 x week # 5", 2, "week needs PLACE");
    check_fault("week 5 6", 1, "\"6\" is one field too many for week");
    let many = "\"x\" is one field too many for week";
    check_fault("week mon 07:30 x", 1, many);
    for place in ["Mon 07:30", "monday", "to", "5h", "-", "0x", "1.5", "none"] {
        let word = place.split(' ').next().expect("a word");
        let reason = format!(
            "PLACE is a number of ticks, a time such as 55:30, or a day and a time such as \
             mon 07:30, not \"{}\"",
            word
        );
        check_fault(&format!("week {}", place), 1, &reason);
    }
    for number in ["4294967296", "-1", "0x100000000"] {
        let reason = format!("PLACE is 0 to 4294967295, not {}", number);
        check_fault(&format!("week {}", number), 1, &reason);
    }
    for time in ["168:01", "169:00", "99999999999999999999:00"] {
        let reason = format!("PLACE is 0:00 to 168:00, not {}", time);
        check_fault(&format!("week {}", time), 1, &reason);
    }
    for time in ["24:01", "25:00", "168:00"] {
        let reason = format!("the time after fri is 0:00 to 24:00, not {}", time);
        check_fault(&format!("week fri {}", time), 1, &reason);
    }
    for time in [
        "55:60",
        "55:6",
        "55:006",
        "55:",
        ":30",
        ":",
        "-1:30",
        "1:-3",
        "+1:30",
        "0x1:30",
        "1:2:03",
        "1:3a",
        "\u{661}:30",
    ] {
        check_fault(&format!("week {}", time), 1, &time_fault(time));
        check_fault(&format!("week sat {}", time), 1, &time_fault(time));
    }
    for rest in ["", "100", "mon 07:30", "0730"] {
        let reason = "after sun a time is missing, as in sun 07:30";
        check_fault(&format!("week sun {}", rest), 1, reason);
    }
    check_fault("week 12:00,", 1, &time_fault("12:00,"));
    check_fault("week 1\u{1b}:00", 1, &time_fault("1\\u{1b}:00"));
    let long = "9".repeat(100) + ":0";
    let short = "9".repeat(40) + "...";
    check_fault(&format!("week {}", long), 1, &time_fault(&short));
}

fn time_fault(word: &str) -> String {
    format!(
        "a time is hours and minutes from 00 to 59, such as 55:30, not \"{}\"",
        word
    )
}
