//! Deliberately wrong devices: the differ must find a difference in each. They
//! are the model with one rule altered from outside.

mod buckets;
mod busy_hours;
mod faults;
mod histories;
mod readings;
mod tables;
mod week_calls;

use differ::coverage::Coverage;
use differ::device::Device;
use differ::difference::{Difference, Mismatch};
use differ::fields::Fields;
use differ::run::{names, run_lists};
use differ::sent::Sent;
use differ::shrink::Shrink;
use differ::table::Table;
use faults::Fault;
use model::{Call, Unit};

/// The model with a fault.
#[derive(Clone)]
struct Wrong {
    unit: Unit,
    fault: &'static Fault,
}

impl Wrong {
    fn with(fault: &'static Fault) -> Wrong {
        Wrong {
            unit: Unit::fresh(),
            fault,
        }
    }
}

impl PartialEq for Wrong {
    fn eq(&self, other: &Wrong) -> bool {
        self.unit == other.unit
    }
}

impl Device for Wrong {
    fn name(&self) -> &'static str {
        "wrong device"
    }

    fn fresh(&self) -> Wrong {
        Wrong::with(self.fault)
    }

    fn event(&mut self, kind: u8, a: u8, b: u8, word: i32) -> u8 {
        (self.fault.event)(&mut self.unit, Fields { kind, a, b, word })
    }

    fn call(&mut self, call: Call) -> u8 {
        (self.fault.call)(&mut self.unit, call)
    }

    fn load(&mut self, table: Table) -> u8 {
        (self.fault.load)(&mut self.unit, &table.bytes())
    }

    fn read(&self, address: u8) -> (u8, u8) {
        (self.fault.read)(&self.unit, address)
    }
}

fn all_faults() -> impl Iterator<Item = &'static Fault> {
    faults::FAULTS
        .iter()
        .chain(histories::FAULTS)
        .chain(buckets::FAULTS)
        .chain(tables::FAULTS)
        .chain(readings::FAULTS)
        .chain(busy_hours::FAULTS)
        .chain(week_calls::FAULTS)
}

fn fault(name: &str) -> &'static Fault {
    let found = all_faults().find(|fault| fault.name == name);
    found.expect("a fault of this name")
}

fn difference(fault: &'static Fault, mixed: u32, long: u32) -> Option<Box<Difference>> {
    let mut coverage = Coverage::empty();
    run_lists(&Wrong::with(fault), names(1, mixed, long), &mut coverage).err()
}

#[test]
fn the_differ_finds_each_fault_in_mixed_lists() {
    let mut missed = Vec::new();
    for fault in all_faults().filter(|fault| !fault.needs_long_list) {
        match difference(fault, 2_500, 0) {
            Some(difference) => println!("{}\n{}\n", fault.name, difference),
            None => missed.push(fault.name),
        }
    }
    assert!(missed.is_empty(), "not found: {:?}", missed);
}

#[test]
fn the_differ_finds_the_faults_beyond_255_hours() {
    for fault in all_faults().filter(|fault| fault.needs_long_list) {
        let difference = difference(fault, 0, 1).expect(fault.name);
        println!("{}\n{}\n", fault.name, difference);
    }
}

/// Without a fault there is no difference: it is the faults that are found.
#[test]
fn the_differ_finds_nothing_without_a_fault() {
    assert_eq!(difference(&faults::NO_FAULT, 50, 0), None);
}

/// What #102 says of Ready beside the old rules is asked of the device.
#[test]
fn ready_is_compared_with_the_old_rules() {
    for (name, mismatch) in [
        ("never Ready", Mismatch::LessReady),
        ("Ready lost at a switch", Mismatch::ReadyEnded),
    ] {
        let difference = difference(fault(name), 100, 0).expect(name);
        assert_eq!(difference.mismatch, mismatch);
    }
}

#[test]
fn a_run_that_does_not_reach_everything_says_so() {
    let mut coverage = Coverage::empty();
    run_lists(&Unit::fresh(), names(1, 20, 0), &mut coverage).expect("no difference");
    let missing = coverage.missing();
    assert!(missing.contains(&"events that end beyond 255 hours"));
    assert!(!missing.contains(&"events that end in Locked"));
}

/// The same list is repeated by its name, and a short one is found from it.
#[test]
fn a_difference_is_repeated_and_shortened() {
    let wrong = Wrong::with(fault("-128 negated in a byte"));
    let mut coverage = Coverage::empty();
    let first = run_lists(&wrong, names(1, 100, 0), &mut coverage).expect_err("a difference");
    let again = run_lists(&wrong, [first.name].into_iter(), &mut coverage);
    assert_eq!(again, Err(first.clone()));
    let shrink = Shrink::of(&wrong, first.name).expect("a difference");
    // The measurement -128 after or instead of a clearing one, and the ticks
    // of a soak.
    assert!(shrink.events.len() <= 81, "{:#?}", shrink.lines());
}

/// Of windows no more are left than what the fault is about.
#[test]
fn a_call_for_windows_is_made_plainer() {
    for (name, windows) in [
        ("a window of the whole week let through", 1),
        ("windows that touch let through", 2),
        ("nine windows let through", 9),
    ] {
        let wrong = Wrong::with(fault(name));
        let difference = difference(wrong.fault, 100, 0).expect(name);
        let shrink = Shrink::of(&wrong, difference.name).expect(name);
        match shrink.events[..] {
            [Sent::Call(Call::SetWindows { count, .. })] => assert_eq!(count, windows),
            _ => panic!("{:#?}", shrink.lines()),
        }
    }
}

/// Of a table no more is left than what the fault is about.
#[test]
fn a_table_is_made_plainer() {
    let standard = Table::STANDARD;
    let short = standard.of_length(standard.length - 1);
    for (name, table) in [
        ("2 let stand at 0x40", standard.with(0x40, 2)),
        ("a byte too few loads", short),
    ] {
        let wrong = Wrong::with(fault(name));
        let difference = difference(wrong.fault, 100, 0).expect(name);
        let shrink = Shrink::of(&wrong, difference.name).expect(name);
        assert_eq!(shrink.events, [Sent::Load(table)]);
    }
}
