//! The program: compares the controller with the model over random lists of
//! events, calls and tables, and tells what was reached.

use differ::coverage::Coverage;
use differ::device::Device;
use differ::difference::{Difference, Name};
use differ::report::{grouped, print_counts, print_repeat};
use differ::run::{names, run_list, run_lists, LONG_LISTS};
use differ::shrink::Shrink;
use shared::options::{chosen, unknown, Options};
use std::ffi::OsString;
use std::process::ExitCode;

const USAGE: &str = "\
usage: differ [--self] [--seed N] [--lists M]    M mixed lists and 3 long ones
       differ [--self] --list SEED [--long] [--shrink]    one list again
  --self    compares the model with itself
  --long    the list is one of those with a long Holdover
  --shrink  looks for a short list with a difference";

struct Choices {
    with_itself: bool,
    seed: u64,
    lists: u32,
    list: Option<u64>,
    long: bool,
    shrink: bool,
}

fn main() -> ExitCode {
    let choices = match chosen("differ", USAGE, choices) {
        Ok(choices) => choices,
        Err(end) => return end,
    };
    let passed = if choices.with_itself {
        compare(&model::Unit::fresh(), &choices)
    } else {
        compare_controller(&choices)
    };
    if passed {
        ExitCode::SUCCESS
    } else {
        ExitCode::FAILURE
    }
}

/// None where the usage is asked for.
fn choices(
    mut options: Options<impl Iterator<Item = OsString>>,
) -> Result<Option<Choices>, String> {
    let mut choices = Choices {
        with_itself: false,
        seed: 1,
        lists: 2_500,
        list: None,
        long: false,
        shrink: false,
    };
    while let Some(argument) = options.next() {
        match argument.to_str().unwrap_or_default() {
            "--help" | "-h" => return Ok(None),
            "--self" => choices.with_itself = true,
            "--long" => choices.long = true,
            "--shrink" => choices.shrink = true,
            option @ "--seed" => choices.seed = options.number(option)?,
            option @ "--lists" => choices.lists = options.number(option)?,
            option @ "--list" => choices.list = Some(options.number(option)?),
            _ => return Err(unknown(&argument)),
        }
    }
    Ok(Some(choices))
}

#[cfg(feature = "controller")]
fn compare_controller(choices: &Choices) -> bool {
    compare(&controller::Unit::fresh(), choices)
}

#[cfg(not(feature = "controller"))]
fn compare_controller(_: &Choices) -> bool {
    eprintln!("differ: built without the controller's library; only --self can run");
    false
}

fn compare<D: Device>(make: &D, choices: &Choices) -> bool {
    match choices.list {
        Some(seed) => {
            let long = choices.long;
            compare_list(make, Name { seed, long }, choices)
        }
        None => compare_lists(make, choices),
    }
}

/// One list again.
fn compare_list<D: Device>(make: &D, name: Name, choices: &Choices) -> bool {
    let mut coverage = Coverage::empty();
    if let Err(difference) = run_list(make, name, &mut coverage) {
        tell(&difference, choices);
        if choices.shrink {
            print_short_list(make, name);
        }
        return false;
    }
    let list = name.arguments().join(" ");
    println!("differ {}: {}: no difference", list, totals(&coverage));
    true
}

/// A difference, and how to see it again.
fn tell(difference: &Difference, choices: &Choices) {
    println!("{}", difference);
    let mut arguments = difference.name.arguments();
    if choices.with_itself {
        arguments.push("--self".to_string());
    }
    print_repeat(&arguments);
}

fn print_short_list<D: Device>(make: &D, name: Name) {
    if let Some(shrink) = Shrink::of(make, name) {
        println!(
            "a list of {} events with a difference:",
            shrink.events.len()
        );
        for line in shrink.lines() {
            println!("{}", line);
        }
        println!("  {}", shrink.mismatch);
    }
}

/// All lists of the base seed, with the report of what they reached.
fn compare_lists<D: Device>(make: &D, choices: &Choices) -> bool {
    let seed = choices.seed;
    println!(
        "differ: base seed {}, the model and the {}",
        seed,
        make.name()
    );
    let mut coverage = Coverage::empty();
    let names = names(seed, choices.lists, LONG_LISTS);
    if let Err(difference) = run_lists(make, names, &mut coverage) {
        tell(&difference, choices);
        return false;
    }
    println!("how many events there were of each kind:");
    let all_reached = print_counts(coverage.counts());
    let reached = if all_reached {
        "every state reached"
    } else {
        "NOT every state reached"
    };
    println!(
        "differ: {}, seed {}: no difference, {}",
        totals(&coverage),
        seed,
        reached
    );
    all_reached
}

fn totals(coverage: &Coverage) -> String {
    format!(
        "{} lists, {} events, {} reads",
        grouped(coverage.lists),
        grouped(coverage.events),
        grouped(coverage.reads())
    )
}
