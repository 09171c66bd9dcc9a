//! The comments of the examples are true: the story on top, and the times behind
//! statements. `docs/MAINTAINING.md`, "Add a case", says what is asked here.

use crate::files::{example, examples, read_text};
use controller::STATES;
use sheet_tool::make::script;
use sheet_tool::records::Timed;
use sheet_tool::time::{seconds, TICK_MS};

/// So many lines a story has at least.
const LINES: usize = 3;
/// What a line of a story looks like.
const LINE: &str = "#   716.544 s  tick 5598  43 blocks of 128 samples: Ready";

/// A time in a comment, in milliseconds: `716.544 s`.
fn time(words: &[&str]) -> Option<u64> {
    match words {
        [seconds, unit, ..] if unit.trim_end_matches(':') == "s" => {
            let (whole, part) = seconds.split_once('.')?;
            Some(1_000 * whole.parse::<u64>().ok()? + part.parse::<u64>().ok()?)
        }
        _ => None,
    }
}

/// What a story tells of a tick, the first being 1; 0 is before it.
struct Told<'a> {
    line: &'a str,
    tick: u64,
    words: String,
}

fn story(text: &str) -> Result<Vec<Told<'_>>, String> {
    let mut story = Vec::new();
    for line in text.lines() {
        let words: Vec<_> = line.split_whitespace().collect();
        if let ["#", seconds, "s", "tick", tick, told @ ..] = &words[..] {
            let tick = tick
                .parse()
                .map_err(|_| format!("{}: {} is no number of a tick", line, tick))?;
            if time(&[seconds, "s"]) != Some(TICK_MS * tick) {
                let right = self::seconds(tick);
                return Err(format!("{}: tick {} is at {} s", line, tick, right));
            }
            let words = told.join(" ");
            story.push(Told { line, tick, words });
        }
    }
    Ok(story)
}

/// The state that is told of, if one is.
fn told_state(told: &str) -> Option<&'static str> {
    let mut names = STATES;
    names.sort_by_key(|name| std::cmp::Reverse(name.len()));
    names.into_iter().find(|name| told.contains(name))
}

/// The state when so many ticks have passed; none is before everything, when
/// the unit is fresh.
fn state_after(records: &[Timed], ticks: Option<u64>) -> &'static str {
    let mut from_the_last = records.iter().rev();
    let last = from_the_last.find(|timed| Some(timed.ticks) == ticks);
    last.map_or(STATES[0], |timed| timed.record.state_name())
}

/// A state that a story tells of begins at its tick, or is still there.
fn check_line(told: &Told, records: &[Timed]) -> Result<(), String> {
    let last = records.last().map_or(0, |timed| timed.ticks);
    if told.tick > last {
        return Err(format!("{}: the run ends with tick {}", told.line, last));
    }
    let state = match told_state(&told.words) {
        Some(state) => state,
        None => return Ok(()),
    };
    let before = state_after(records, told.tick.checked_sub(1));
    let after = state_after(records, Some(told.tick));
    if after != state {
        return Err(format!("{}: the state after it is {}", told.line, after));
    }
    match (before == state, told.words.contains("still")) {
        (true, false) => Err(format!("{}: it stood before; say \"still\"", told.line)),
        (false, true) => Err(format!("{}: the state before is {}", told.line, before)),
        _ => Ok(()),
    }
}

/// The records of a text, with calls or not.
fn records(text: &str) -> Vec<Timed> {
    script(text.as_bytes()).expect("a text").records()
}

fn check_story(text: &str, least: usize) -> Result<(), String> {
    let records = records(text);
    let story = story(text)?;
    if story.len() < least {
        return Err(format!(
            "{} lines of a story, and not {}, as\n{}",
            story.len(),
            least,
            LINE
        ));
    }
    story.iter().try_for_each(|told| check_line(told, &records))
}

/// A time behind a statement is the time after it.
fn check_times(text: &str) -> Result<(), String> {
    let mut before = String::new();
    for line in text.lines() {
        before += &format!("{}\n", line);
        let (statement, comment) = line.split_once('#').unwrap_or((line, ""));
        let words: Vec<_> = comment.split_whitespace().collect();
        if let (false, Some(ms)) = (statement.is_empty(), time(&words)) {
            let ticks = records(&before).last().map_or(0, |timed| timed.ticks);
            if ms != TICK_MS * ticks {
                return Err(format!("{}: it is {} s after it", line, seconds(ticks)));
            }
        }
    }
    Ok(())
}

#[test]
fn the_comments_of_the_examples_are_true() {
    for name in examples() {
        let text = read_text(&example(&name, "txt"));
        // Document 01's own example is too short for a story.
        let least = if name == "document-01" { 0 } else { LINES };
        let outcome = check_story(&text, least).and_then(|()| check_times(&text));
        if let Err(reason) = outcome {
            panic!(
                "examples/{}.txt: {}\n(docs/MAINTAINING.md, \"Add a case\", says what is asked)",
                name, reason
            );
        }
    }
}

/// What is not true is found, and told.
#[test]
fn what_is_asked_of_a_story_is_told() {
    let told = |line: &str| {
        let text = format!(
            "{}\nsetting control 1\nmeasurement 1 0\n80 x tick 0 0 0\n",
            line
        );
        check_story(&text, 1).and_then(|()| check_times(&text))
    };
    for line in [
        "#  10.112 s  tick 79  Pre-locked",
        "#  10.240 s  tick 80  still Pre-locked",
        "#   0.000 s  tick  0  still Free Run",
        "#   0.128 s  tick  1  still Free Run",
        "#   0.256 s  tick  2  nothing of a state",
    ] {
        assert_eq!(told(line), Ok(()));
    }
    for (line, reason) in [
        ("# 10.112 s: Locked", "0 lines of a story, and not 1, as\n"),
        ("#   0.000 s  tick  x  Free Run", "x is no number of a tick"),
        ("#  10.000 s  tick 79  Pre-locked", "tick 79 is at 10.112 s"),
        ("#  10.368 s  tick 81  end", "the run ends with tick 80"),
        (
            "#  10.112 s  tick 79  Locked",
            "the state after it is Pre-locked",
        ),
        (
            "#  10.240 s  tick 80  Pre-locked",
            "it stood before; say \"still\"",
        ),
        (
            "#  10.112 s  tick 79  still Pre-locked",
            "the state before is Free Run",
        ),
    ] {
        let found = told(line).expect_err(line);
        assert!(found.contains(reason), "{}", found);
    }
    let late = check_times("2 x tick 0 0 0  # 0.128 s: too early");
    let reason = "2 x tick 0 0 0  # 0.128 s: too early: it is 0.256 s after it";
    assert_eq!(late, Err(reason.to_string()));
}
