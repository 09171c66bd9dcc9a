//! #105, the real controller beside the model: which tables load, by length, by
//! place and by value; units that are made from them; and long lists from
//! there. Each is asked of the model alone too.

#[path = "devices/bench.rs"]
mod bench;
#[cfg(feature = "controller")]
#[path = "devices/held.rs"]
mod held;
#[cfg(feature = "controller")]
#[path = "devices/inspected.rs"]
mod inspected;

use bench::Bench;
use differ::coverage::Coverage;
use differ::device::Device;
use differ::difference::Name;
use differ::draw;
use differ::list::List;
use differ::scenarios::mix_events;
use differ::table::{Table, FORBIDDEN, LARGEST};
use model::{table_addresses, wait_limit, BucketSet, Call, Unit, Window, LOCK_TICKS, SOAK_TICKS};
use shared::random::Random;

const SEED: u64 = 6;
/// How many random tables are tried.
const TABLES: u32 = 20_000;
/// How many lists from loaded units, and how long each is.
const LISTS: u64 = 40;
const EVENTS: u64 = 10_000;

const STANDARD: Table = Table::STANDARD;

/// A unit with a past: Ready, a reference selected and another waited for,
/// other bucket sets, a place in the week and windows, and registers that are
/// not fresh.
fn busy<D: Device>(make: &D) -> Bench<D> {
    let mut bench = Bench::fresh(make);
    for (address, value) in [(0x40, 1), (0x1d, 0x09), (0x43, 200), (0x44, 90)] {
        bench.write(address, value);
    }
    bench.measure(2);
    bench.expect_service(2, u32::from(SOAK_TICKS));
    bench.write(0x26, 1);
    bench.measure(1);
    let numbers = BucketSet::of(20, 10, 5, 3);
    bench.accept(Call::SetBucket { set: 3, numbers });
    bench.accept(Call::AssignBucket { input: 8, set: 3 });
    bench.accept(Call::SetWeek { place: 4_000_000 });
    bench.accept(Call::windows(&[
        Window::of(0, 9_000),
        Window::of(3_999_999, 4_100_000),
    ]));
    bench.clean_ticks(100);
    assert!(bench.unit().wait.ticks > 0);
    bench
}

/// Tables with what they are answered by: on a fresh unit, on one with a past,
/// and on whatever the tables before have left.
fn check_answers<D: Device>(make: &D, answers: &[(Table, u8)]) {
    for mut bench in [Bench::fresh(make), busy(make)] {
        for &(table, answer) in answers {
            assert_eq!(bench.send(table), answer, "{}", table);
            bench.ticks(1, 0xff, true);
        }
    }
}

/// The answers of the controller, whose every byte a refusal leaves, and of the
/// model.
fn check_answers_of_all(answers: &[(Table, u8)]) {
    check_answers(&Unit::fresh(), answers);
    #[cfg(feature = "controller")]
    check_answers(&held::Held::fresh_unit(), answers);
    #[cfg(feature = "controller")]
    check_answers(&inspected::Inspected::fresh_pair(), answers);
}

#[test]
fn the_length_is_that_of_all_registers() {
    let lengths = (0..=300).chain([512 + STANDARD.length, 65_535]);
    let answer = |length| if length == STANDARD.length { 0 } else { 15 };
    let answers = lengths.map(|length| (STANDARD.of_length(length), answer(length)));
    check_answers_of_all(&answers.collect::<Vec<_>>());
}

#[test]
fn each_place_that_must_have_0() {
    let mut answers = Vec::new();
    for address in FORBIDDEN {
        let values = [1, 2, 3, 4, 0x10, 0x80, 255];
        answers.extend(values.map(|value| (STANDARD.with(address, value), 15)));
        answers.push((STANDARD.with(address, 0), 0));
    }
    check_answers_of_all(&answers);
}

#[test]
fn each_value_up_to_its_largest() {
    let mut answers = Vec::new();
    for address in (0x1c..=0x23).chain([0x42, 0x43]) {
        let values = [0, 1, 15, 16, 0x80, 255];
        answers.extend(values.map(|value| (STANDARD.with(address, value), 0)));
    }
    for (address, largest) in LARGEST {
        // With 127 and 0 for the other limit, each can be tried alone.
        let table = match address {
            0x44 => STANDARD.with(0x45, 0),
            0x45 => STANDARD.with(0x44, 127),
            _ => STANDARD,
        };
        let last = if address == 0x45 { 121 } else { largest };
        answers.push((table.with(address, last), 0));
        for value in [largest + 1, largest + 2, 0x80 | largest, 255] {
            answers.push((table.with(address, value), 15));
        }
    }
    check_answers_of_all(&answers);
}

#[test]
fn limits_5_and_6_apart() {
    let limits = |reject, qualification| STANDARD.with(0x44, reject).with(0x45, qualification);
    let mut answers = Vec::new();
    for qualification in 0..=121 {
        answers.push((limits(qualification + 5, qualification), 15));
        answers.push((limits(qualification + 6, qualification), 0));
        answers.push((limits(qualification, qualification), 15));
        answers.push((limits(qualification / 2, qualification), 15));
        answers.push((limits(127, qualification), 0));
    }
    answers.extend((122..=127).map(|qualification| (limits(127, qualification), 15)));
    check_answers_of_all(&answers);
}

/// Tables of any bytes, tables that load, and tables with one or two things
/// wrong.
fn check_random_tables<D: Device>(make: &D) {
    let mut random = Random::new(SEED);
    let mut bench = busy(make);
    let mut loaded = 0;
    for _ in 0..TABLES {
        let any = table_addresses().fold(STANDARD, |table, address| {
            let value = random.byte() & random.pick(&[0, 0, 0, 1, 0xff]);
            table.with(address, value)
        });
        let tables = [
            any,
            draw::table(&mut random),
            draw::refused_table(&mut random),
        ];
        loaded += u32::from(bench.send(random.pick(&tables)) == 0);
        let (mask, lock) = (random.byte(), random.one_in(2));
        bench.ticks(1, mask, lock);
    }
    assert!(loaded > TABLES / 4, "{} of {}", loaded, TABLES);
}

#[test]
fn random_tables() {
    check_random_tables(&Unit::fresh());
    #[cfg(feature = "controller")]
    check_random_tables(&held::Held::fresh_unit());
    #[cfg(feature = "controller")]
    check_random_tables(&inspected::Inspected::fresh_pair());
}

/// The whole unit is the standard fresh one, but for the registers, whatever its
/// bytes were before.
#[test]
#[cfg(feature = "controller")]
fn every_field_of_a_loaded_unit_is_fresh() {
    let mut random = Random::new(SEED);
    let mut held = held::Held::fresh_unit();
    for _ in 0..TABLES / 10 {
        let bytes = held.units.iter_mut().flatten();
        bytes.for_each(|byte| *byte = random.byte());
        let table = draw::table(&mut random);
        assert_eq!(held.send(table.into()).0, 0, "{}", table);
        let fresh = controller::Unit::fresh();
        let mut regs = fresh.regs;
        regs[..model::REGISTERS].copy_from_slice(&table.bytes());
        regs[..8].iter_mut().for_each(|byte| *byte &= 0x0f);
        assert!(
            *held.unit() == controller::Unit { regs, ..fresh },
            "{}",
            table
        );
    }
}

/// A table of a unit that wakes in automatic control: input 1 is preferred, 2
/// revertive and second, with this delay; no other is usable.
fn waking(delay: u8) -> Table {
    let values = [(0x40, 1), (0x1d, 0x09), (0x42, 0x03), (0x43, delay)];
    let with = |table: Table, (address, value)| table.with(address, value);
    values.into_iter().fold(STANDARD, with)
}

/// Without a write: selected after a soak, Locked after 16 ticks more, Ready
/// after 43 blocks; and the preferred reference is gone back to after the
/// table's own delay.
fn check_waking<D: Device>(make: &D) {
    for mut bench in [Bench::fresh(make), busy(make)] {
        bench.accept(waking(0));
        bench.measure(1);
        bench.clean_ticks(u32::from(SOAK_TICKS));
        bench.clean_ticks(u32::from(LOCK_TICKS) - 1);
        assert_eq!(bench.unit().read(0x48), (0, 0x21));
        bench.clean_ticks(1);
        assert_eq!(bench.unit().read(0x48), (0, 0x31));

        bench.accept(waking(0));
        bench.measure(2);
        bench.measure(3);
        bench.expect_service(2, u32::from(SOAK_TICKS));
    }
    for delay in [0, 1, 2, 7] {
        let mut bench = Bench::fresh(make);
        bench.accept(waking(delay));
        bench.measure(2);
        bench.clean_ticks(u32::from(SOAK_TICKS));
        assert_eq!(bench.unit().selected, 2);
        bench.measure(1);
        bench.expect_service(1, u32::from(SOAK_TICKS) + wait_limit(delay));
    }
}

#[test]
fn a_unit_that_wakes_in_automatic_control_locks_without_a_write() {
    check_waking(&Unit::fresh());
    #[cfg(feature = "controller")]
    check_waking(&inspected::Inspected::fresh_pair());
}

/// Long lists, each from a table of its own.
fn check_lists<D: Device>(make: &D) {
    let mut coverage = Coverage::empty();
    for seed in 0..LISTS {
        let long = false;
        let mut list = List::fresh(make, Name { seed, long }, &mut coverage);
        let table = draw::table(&mut list.random);
        assert!(table.loads(), "{}", table);
        let outcome = list.load(table);
        let outcome = outcome.and_then(|()| mix_events(&mut list, EVENTS));
        let outcome = outcome.map_err(|found| found.to_string());
        assert_eq!(outcome, Ok(()), "{} of {}", seed, table);
    }
}

#[test]
fn lists_from_loaded_units() {
    check_lists(&Unit::fresh());
    #[cfg(feature = "controller")]
    check_lists(&held::Held::fresh_unit());
    #[cfg(feature = "controller")]
    check_lists(&inspected::Inspected::fresh_pair());
}
