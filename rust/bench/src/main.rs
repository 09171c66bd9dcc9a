//! The program: measures the real controller beside the Rust models, with whole
//! sheets, run and printed, and as a host has them, event by event: the times in
//! turn, in one process, and the instructions, with valgrind. It is no part of
//! the tests.

#![forbid(unsafe_code)]

mod count;
mod lists;
mod runners;

use lists::{List, EVENTS, LISTS};
use runners::{Outputs, Runner, Task, RUNNERS};
use shared::options::{at_fault, unknown, Options};
use std::ffi::OsString;
use std::fs::File;
use std::path::{Path, PathBuf};
use std::process::{Command, ExitCode, Stdio};
use std::time::{Duration, Instant};

/// A file, which the command `bin/bench` can show before anything is built.
const HELP: &str = include_str!("help.txt");

/// The rack program starts anew for each run: fewer of them.
const RACK_RUNS: u32 = 20;

struct Choices {
    rack: Option<PathBuf>,
    runs: u32,
}

fn main() -> ExitCode {
    let mut arguments = std::env::args_os().skip(1).peekable();
    let outcome = match arguments.peek().and_then(|first| first.to_str()) {
        Some("--help" | "-h") => Ok(print!("{}", HELP)),
        Some("--count") => repeat(arguments.skip(1)),
        _ => choices(Options::of(arguments)).map(|choices| measure(&choices)),
    };
    match outcome {
        Ok(()) => ExitCode::SUCCESS,
        Err(reason) => at_fault("bench", &reason),
    }
}

fn choices(mut options: Options<impl Iterator<Item = OsString>>) -> Result<Choices, String> {
    let mut choices = Choices {
        rack: None,
        runs: 200,
    };
    while let Some(argument) = options.next() {
        match argument.to_str().unwrap_or_default() {
            option @ "--rack" => {
                choices.rack = Some(options.value(option, "a program's name")?.into())
            }
            option @ "--runs" => choices.runs = options.number(option)?,
            _ => return Err(unknown(&argument)),
        }
    }
    Ok(choices)
}

/// What the counted process does: a runner, a task and a list, by their names,
/// so often.
fn repeat(arguments: impl Iterator<Item = OsString>) -> Result<(), String> {
    let words: Vec<_> = arguments
        .filter_map(|word| word.into_string().ok())
        .collect();
    let (runner, task, list, repeats) = match &words[..] {
        [runner, task, list, repeats] => (runner, task, list, repeats.parse()),
        _ => return Err("--count takes a runner, a task, a list and a number".to_string()),
    };
    let runner = RUNNERS.iter().find(|other| other.name == runner);
    let task = Task::ALL.into_iter().find(|other| other.name() == task);
    let list = LISTS.iter().find(|(name, _)| name == list);
    match (runner, task, list, repeats) {
        (Some(runner), Some(task), Some((_, list)), Ok(repeats)) => {
            count::repeat(runner, task, &list(), repeats)
        }
        _ => return Err("--count names no runner, no task, no list or no number".to_string()),
    }
    Ok(())
}

fn measure(choices: &Choices) {
    println!(
        "bench: lists of {} events, the best of {} runs each",
        EVENTS, choices.runs
    );
    let counting = count::possible();
    if !counting {
        println!("valgrind is not there: no instructions are counted");
    }
    for (name, list) in LISTS {
        let list = list();
        let sheet = list.sheet();
        describe(name, &sheet);
        for task in Task::ALL {
            let times = times(task, &list, choices.runs);
            let counts = RUNNERS
                .iter()
                .map(|runner| count::instructions(runner, task, name));
            print_table(task, &times, counting.then(|| counts.collect()));
        }
        if let Some(rack) = &choices.rack {
            measure_rack(&sheet, rack);
        }
    }
}

/// What the list holds, so that the numbers can be judged.
fn describe(name: &str, sheet: &[u8]) {
    let records = model::records(sheet).expect("a sheet that runs");
    let share = |holds: fn(&[u8; 4]) -> bool| {
        let count = records.iter().filter(|record| holds(record)).count();
        100 * count / records.len()
    };
    println!(
        "{}: {} records, {} % refused, {} % Locked, {} % Ready",
        name,
        records.len(),
        share(|record| record[0] != 0),
        share(|record| record[1] >> 4 == 3),
        share(|record| record[3] & 4 != 0)
    );
}

/// All runners in turn, the best time of each, in nanoseconds a part of the task.
fn times(task: Task, list: &List, runs: u32) -> Vec<f64> {
    let (mut expected, mut outputs) = (Outputs::empty(), Outputs::empty());
    let work = |runner: &Runner| (runner.name, runner.work(task, list), Duration::MAX);
    let mut works: Vec<_> = RUNNERS.iter().map(work).collect();
    (works[0].1)(&mut expected);
    for _ in 0..runs {
        for (name, work, best) in &mut works {
            outputs.clear();
            let start = Instant::now();
            work(&mut outputs);
            *best = start.elapsed().min(*best);
            assert!(outputs == expected, "{} writes other bytes", name);
        }
    }
    let (parts, _) = task.parts();
    let each = |best: Duration| best.as_nanos() as f64 / parts as f64;
    works.into_iter().map(|(_, _, best)| each(best)).collect()
}

/// A line for each runner: time and instructions, and the ratios to the models.
fn print_table(task: Task, times: &[f64], counts: Option<Vec<f64>>) {
    let (_, part) = task.parts();
    print!(
        "{:<18}{:>16}{:>10}{:>10}",
        task.name(),
        format!("ns {}", part),
        "to plain",
        "to tuned"
    );
    if counts.is_some() {
        let heading = format!("instructions {}", part);
        print!("{:>28}{:>10}", heading, "to tuned");
    }
    println!();
    for (i, runner) in RUNNERS.iter().enumerate() {
        let (plain, tuned) = (times[i] / times[0], times[i] / times[1]);
        print!(
            "  {:<16}{:>16.1}{:>10.2}{:>10.2}",
            runner.name, times[i], plain, tuned
        );
        if let Some(counts) = &counts {
            print!("{:>28.1}{:>10.2}", counts[i], counts[i] / counts[1]);
        }
        println!();
    }
}

/// The wall time of the rack program with the sheet as its input.
fn measure_rack(sheet: &[u8], rack: &Path) {
    let file = std::env::temp_dir().join("bench-sheet");
    std::fs::write(&file, sheet).expect("a sheet to read from");
    let time = || {
        let input = File::open(&file).expect("the sheet just written");
        let start = Instant::now();
        let output = Command::new(rack)
            .stdin(input)
            .stderr(Stdio::inherit())
            .output()
            .expect("the rack program");
        let time = start.elapsed();
        assert!(
            output.stdout == model::printed(sheet).as_bytes(),
            "the rack program prints another text"
        );
        time
    };
    let best = (0..RACK_RUNS).map(|_| time()).min();
    let milliseconds = best.map_or(0.0, |best| 1e3 * best.as_secs_f64());
    println!("  rack program{:>16.2} ms a sheet", milliseconds);
}
