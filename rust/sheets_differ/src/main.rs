//! The program: compares the controller's run sheets and the rack program with
//! the model over random sheets and tells what was reached.

use differ::report::{grouped, print_counts, print_repeat};
use shared::options::{chosen, unknown, Options};
use shared::random::Random;
use sheets_differ::compare::Against;
use sheets_differ::coverage::Coverage;
use sheets_differ::damage::{damages, Damage};
use sheets_differ::difference::{hex, Difference, Name};
use sheets_differ::rack::{Program, Rack};
use sheets_differ::run::{compare, names, run_sheet, run_sheets};
use sheets_differ::runner::{Functions, Runner, MODEL, TUNED_MODEL};
use sheets_differ::shorten::shorten;
use std::ffi::OsString;
use std::path::PathBuf;
use std::process::ExitCode;

const USAGE: &str = "\
usage: sheets_differ [options] [--seed N] [--sheets M]    M whole, M damaged sheets
       sheets_differ [options] --sheet SEED [--damaged]    one sheet again
  --self       compares the model with itself
  --tuned      compares the model with the tuned model
  --rack PATH  the rack program; else $RACK, else target/bin/rack
  --no-rack    leaves the rack program out
  --save PATH  the folder that a sheet with a difference is written to; else /tmp
  --damaged    the sheet is one of the damaged ones";

/// Where the rack program lies in the repository.
const RACK: &str = concat!(env!("CARGO_MANIFEST_DIR"), "/../../target/bin/rack");

const NO_LIBRARY: &str = "built without the controller's library; only --self and --tuned can run";

struct Choices {
    runner: Runners,
    seed: u64,
    sheets: u32,
    sheet: Option<u64>,
    damaged: bool,
    rack: PathBuf,
    no_rack: bool,
    save: Option<PathBuf>,
}

/// What is compared with the model, and the option that says so.
#[derive(Clone, Copy, PartialEq, Eq)]
enum Runners {
    Controller,
    Itself,
    Tuned,
}

impl Runners {
    fn option(self) -> Option<&'static str> {
        match self {
            Runners::Controller => None,
            Runners::Itself => Some("--self"),
            Runners::Tuned => Some("--tuned"),
        }
    }

    fn functions(self) -> Option<Functions> {
        match self {
            Runners::Controller => controller(),
            Runners::Itself => Some(MODEL),
            Runners::Tuned => Some(TUNED_MODEL),
        }
    }
}

fn main() -> ExitCode {
    let choices = match chosen("sheets_differ", USAGE, choices) {
        Ok(choices) => choices,
        Err(end) => return end,
    };
    match run(&choices) {
        Ok(true) => ExitCode::SUCCESS,
        Ok(false) => ExitCode::FAILURE,
        Err(reason) => {
            eprintln!("sheets_differ: {}", reason);
            ExitCode::FAILURE
        }
    }
}

/// None where the usage is asked for.
fn choices(
    mut options: Options<impl Iterator<Item = OsString>>,
) -> Result<Option<Choices>, String> {
    let mut choices = Choices {
        runner: Runners::Controller,
        seed: 1,
        sheets: 2_500,
        sheet: None,
        damaged: false,
        rack: std::env::var_os("RACK")
            .unwrap_or_else(|| RACK.into())
            .into(),
        no_rack: false,
        save: None,
    };
    while let Some(argument) = options.next() {
        match argument.to_str().unwrap_or_default() {
            "--help" | "-h" => return Ok(None),
            "--self" => choices.runner = Runners::Itself,
            "--tuned" => choices.runner = Runners::Tuned,
            "--damaged" => choices.damaged = true,
            "--no-rack" => choices.no_rack = true,
            option @ "--rack" => choices.rack = options.value(option, "a program's name")?.into(),
            option @ "--save" => {
                choices.save = Some(options.value(option, "a folder's name")?.into())
            }
            option @ "--seed" => choices.seed = options.number(option)?,
            option @ "--sheets" => choices.sheets = options.number(option)?,
            option @ "--sheet" => choices.sheet = Some(options.number(option)?),
            _ => return Err(unknown(&argument)),
        }
    }
    Ok(Some(choices))
}

#[cfg(feature = "sheets")]
fn controller() -> Option<Functions> {
    Some(sheets_differ::runner::CONTROLLER)
}

#[cfg(not(feature = "sheets"))]
fn controller() -> Option<Functions> {
    None
}

/// The rack program, none if it is to be left out.
fn rack(choices: &Choices) -> Result<Option<Program>, String> {
    if choices.no_rack {
        println!("sheets_differ: the rack program is LEFT OUT (--no-rack)");
        return Ok(None);
    }
    let path = choices.rack.clone();
    if path.is_file() {
        Ok(Some(Program { path }))
    } else {
        let path = path.display();
        Err(format!(
            "no rack program {}: the repository's command bin/rack makes target/bin/rack; see also \
             --rack and --no-rack",
            path
        ))
    }
}

/// Whether all went well; or why nothing could be compared.
fn run(choices: &Choices) -> Result<bool, String> {
    let runner = &choices.runner.functions().ok_or(NO_LIBRARY)?;
    let program = rack(choices)?;
    let rack = program.as_ref().map(|program| program as &dyn Rack);
    Ok(compare_sheets(&Against { runner, rack }, choices))
}

fn compare_sheets<R: Runner>(against: &Against<R>, choices: &Choices) -> bool {
    let damages = damages();
    let mut coverage = Coverage::empty(&damages);
    let outcome = match choices.sheet {
        Some(seed) => {
            let damaged = choices.damaged;
            let name = Name { seed, damaged };
            run_sheet(against, name, &damages, true, &mut coverage)
        }
        None => {
            println!(
                "sheets_differ: base seed {}, the model and the {}",
                choices.seed,
                against.runner.name()
            );
            let names = names(choices.seed, choices.sheets);
            run_sheets(against, names, &damages, &mut coverage)
        }
    };
    if let Err(difference) = outcome {
        println!("{}", difference);
        print_repeat(&repeat(difference.name, choices));
        save(&difference.sheet, "sheet", choices, &difference);
        print_short_sheet(against, &damages, choices, &difference);
        return false;
    }
    if choices.sheet.is_some() {
        println!("sheets_differ: {}: no difference", totals(&coverage));
        return true;
    }
    report(&coverage, choices)
}

/// The arguments that compare a sheet again, in whatever folder they are given.
fn repeat(name: Name, choices: &Choices) -> Vec<String> {
    let mut arguments = name.arguments();
    arguments.extend(choices.runner.option().map(String::from));
    if choices.no_rack {
        arguments.push("--no-rack".to_string());
    } else {
        let here = std::env::current_dir().unwrap_or_default();
        let rack = here.join(&choices.rack).display().to_string();
        arguments.extend(["--rack".to_string(), rack]);
    }
    arguments
}

/// Writes a sheet of the difference to a file, whole.
fn save(sheet: &[u8], what: &str, choices: &Choices, difference: &Difference) {
    let path = choices.save.clone().unwrap_or_else(std::env::temp_dir);
    let path = path.join(format!("{}-{}", what, difference.name.seed));
    match std::fs::write(&path, sheet) {
        Ok(()) => println!("  written to {}", path.display()),
        Err(error) => println!("  not written to {}: {}", path.display(), error),
    }
}

/// Looks for a shorter sheet with a difference.
fn print_short_sheet<R: Runner>(
    against: &Against<R>,
    damages: &[Damage],
    choices: &Choices,
    difference: &Difference,
) {
    let mismatch = |sheet: &[u8]| {
        let mut random = Random::new(difference.name.seed);
        let mut coverage = Coverage::empty(damages);
        compare(against, &mut random, sheet, true, &mut coverage).err()
    };
    let short = shorten(&difference.sheet, |sheet| mismatch(sheet).is_some());
    if short.len() == difference.sheet.len() {
        return;
    }
    if let Some(mismatch) = mismatch(&short) {
        println!("a sheet of {} bytes with a difference:", short.len());
        println!("  {}", hex(&short));
        println!("  {}", mismatch);
        save(&short, "short-sheet", choices, difference);
    }
}

/// What the sheets have reached.
fn report(coverage: &Coverage, choices: &Choices) -> bool {
    println!("how many there were of each kind:");
    let all_reached = print_counts(coverage.counts(!choices.no_rack));
    let every = if all_reached { "every" } else { "NOT every" };
    println!(
        "sheets_differ: {}, seed {}: no difference, {} kind reached",
        totals(coverage),
        choices.seed,
        every
    );
    all_reached
}

fn totals(coverage: &Coverage) -> String {
    format!(
        "{} whole and {} damaged sheets, {} records, {} checks, {} runs, {} prints, {} texts",
        grouped(coverage.whole),
        grouped(coverage.damaged),
        grouped(coverage.records),
        grouped(coverage.checks()),
        grouped(coverage.runs()),
        grouped(coverage.pages.prints()),
        grouped(coverage.texts())
    )
}
