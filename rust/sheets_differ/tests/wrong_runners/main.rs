//! Deliberately wrong runners, pages and rack programs: a difference must be
//! found in each. They are the model with its answers altered.

mod faults;
mod pages;
mod prints;
mod racks;

use faults::{Fault, FAULTS, NO_FAULT};
use pages::{WrongPages, PAGE_FAULTS};
use prints::PRINT_FAULTS;
use racks::{WrongRack, RACK_FAULTS};
use sheets_differ::compare::Against;
use sheets_differ::coverage::Coverage;
use sheets_differ::damage::damages;
use sheets_differ::difference::{Difference, Mismatch, Output};
use sheets_differ::rack::Rack;
use sheets_differ::run::{make, names, run_sheet, run_sheets};
use sheets_differ::runner::{Runner, MODEL, TUNED_MODEL};
use sheets_differ::shorten::shorten;

const SEED: u64 = 1;

fn difference<R: Runner>(runner: &R, rack: Option<&dyn Rack>) -> Option<Box<Difference>> {
    let damages = damages();
    let mut coverage = Coverage::empty(&damages);
    let names = names(SEED, 600);
    run_sheets(&Against { runner, rack }, names, &damages, &mut coverage).err()
}

fn fault(name: &str) -> &'static Fault {
    let found = FAULTS.iter().find(|fault| fault.name == name);
    found.expect("a fault of this name")
}

#[test]
fn each_wrong_runner_is_found() {
    let mut missed = Vec::new();
    for fault in FAULTS.iter().chain(PRINT_FAULTS) {
        match difference(fault, None) {
            Some(difference) => println!("{}\n{}\n", fault.name, difference),
            None => missed.push(fault.name),
        }
    }
    assert!(missed.is_empty(), "not found: {:?}", missed);
}

#[test]
fn each_wrong_page_is_found() {
    let mut missed = Vec::new();
    for &(name, text) in PAGE_FAULTS {
        match difference(&WrongPages { text }, None) {
            Some(difference) => println!("{}\n{}\n", name, difference),
            None => missed.push(name),
        }
    }
    assert!(missed.is_empty(), "not found: {:?}", missed);
}

#[test]
fn each_wrong_rack_program_is_found() {
    let mut missed = Vec::new();
    for &(name, text) in RACK_FAULTS {
        match difference(&MODEL, Some(&WrongRack { text })) {
            Some(difference) => println!("{}\n{}\n", name, difference),
            None => missed.push(name),
        }
    }
    assert!(missed.is_empty(), "not found: {:?}", missed);
}

/// Without a fault there is no difference: it is the faults that are found.
#[test]
fn nothing_is_found_without_a_fault() {
    let rack = WrongRack {
        text: |sheet, _| model::printed(sheet),
    };
    assert_eq!(difference(&NO_FAULT, Some(&rack)), None);
}

#[test]
fn the_tuned_model_gives_the_same_records() {
    assert_eq!(difference(&TUNED_MODEL, None), None);
}

/// Each kind of damage gives the number that it says.
#[test]
fn the_damages_give_their_numbers() {
    let damages = damages();
    let mut given = vec![0; damages.len()];
    for name in names(SEED, 4_000).filter(|name| name.damaged) {
        let made = make(name, &damages);
        let index = made.damage.expect("a damaged sheet");
        given[index] += 1;
        if let Some(number) = damages[index].gives {
            let found = model::check(&made.bytes, usize::MAX);
            assert_eq!(found, number, "{}", damages[index].name);
        }
    }
    assert!(given.iter().all(|&count| count > 0));
}

#[test]
fn a_run_that_does_not_reach_everything_says_so() {
    let damages = damages();
    let mut coverage = Coverage::empty(&damages);
    let against = Against {
        runner: &MODEL,
        rack: None,
    };
    let whole = names(SEED, 20).filter(|name| !name.damaged);
    let outcome = run_sheets(&against, whole, &damages, &mut coverage);
    outcome.expect("no difference");
    let missing = coverage.missing(true);
    assert!(missing.contains(&"checks answered 12".to_string()));
    assert!(missing.contains(&"prints answered 12".to_string()));
    assert!(missing.contains(&"texts `refused 9`".to_string()));
    assert!(!missing.contains(&"checks answered 0".to_string()));
    assert!(!missing.contains(&"prints answered 0".to_string()));
    let without_rack = coverage.missing(false);
    assert!(!without_rack.iter().any(|name| name.starts_with("texts")));
}

/// The same sheet is repeated by its name, and a short one is found from it.
#[test]
fn a_difference_is_repeated_and_shortened() {
    let wrong = fault("a refused event ends the sheet");
    let first = difference(wrong, None).expect("a difference");
    let damages = damages();
    let mut coverage = Coverage::empty(&damages);
    let against = Against {
        runner: wrong,
        rack: None,
    };
    let again = run_sheet(&against, first.name, &damages, false, &mut coverage);
    assert_eq!(again, Err(first.clone()));
    let differs = |sheet: &[u8]| {
        wrong.check(sheet, 40_000) == 0 && {
            let (mut expected, mut found) = (vec![0; 40_000], vec![0; 40_000]);
            model::run(sheet, &mut expected) != wrong.run(sheet, &mut found)
        }
    };
    let short = shorten(&first.sheet, differs);
    assert!(differs(&short));
    // A refused write as a setting, or a refused event, and one after it.
    assert!(short.len() <= 20, "{:?}", short);
}

/// The places of differences are told as they are.
#[test]
fn the_first_differing_place_is_told() {
    let found = difference(fault("the output's first byte changed"), None);
    match found.expect("a difference").mismatch {
        Mismatch::Byte { place, .. } => assert_eq!(place, 0),
        other => panic!("{}", other),
    }
    let wrong = WrongPages {
        text: |records| model::pages(records).replace("Locked ", "locked "),
    };
    let mismatch = difference(&wrong, None).expect("a difference").mismatch;
    let told = mismatch.to_string();
    match mismatch {
        Mismatch::Byte { output, place, .. } => {
            assert_eq!((output, place % 28), (Output::Pages, 6));
            let (page, line) = (place / 1_400, place / 28 % 50);
            let place = format!("(page {}, line {}, column 6)", page, line);
            assert!(told.contains(&place), "{}", told);
        }
        other => panic!("{}", other),
    }
    let rack = WrongRack {
        text: |sheet, _| model::printed(sheet).replace("records", "Records"),
    };
    match difference(&MODEL, Some(&rack))
        .expect("a difference")
        .mismatch
    {
        Mismatch::Line { line, .. } => assert_eq!(line, 1),
        other => panic!("{}", other),
    }
}
