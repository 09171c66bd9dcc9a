//! A refused event, call or table leaves every byte of the unit's memory as it
//! was, and an accepted one the same bytes in two units that were the same: the
//! unit is held as bytes, twice, and these are lent to the C functions.
#![cfg(feature = "controller")]

#[path = "devices/held.rs"]
mod held;

use differ::coverage::Coverage;
use differ::fields::Fields;
use differ::run::{names, run_lists};
use differ::sent::Sent;
use differ::table::Table;
use held::{Held, SIZE};
use model::{BucketSet, Call};
use shared::random::Random;
use std::collections::BTreeSet;

const SEED: u64 = 4;
/// How many units of any bytes are tried.
const ANY_UNITS: u32 = 20_000;

const fn event(kind: u8, a: u8, b: u8, word: i32) -> Sent {
    Sent::Fields(Fields { kind, a, b, word })
}

const fn set(set: u8, size: u8, set_level: u8, clear_level: u8, decay: u8) -> Sent {
    let numbers = BucketSet::of(size, set_level, clear_level, decay);
    Sent::Call(Call::SetBucket { set, numbers })
}

const fn assign(input: u8, set: u8) -> Sent {
    Sent::Call(Call::AssignBucket { input, set })
}

const fn week(place: u32) -> Sent {
    Sent::Call(Call::SetWeek { place })
}

/// The call that sets so many windows, the first of these numbers.
const fn windows(count: u8, first: [u32; 6]) -> Sent {
    let [a, b, c, d, e, f] = first;
    let numbers = [a, b, c, d, e, f, 0, 0, 0, 0, 0, 0, 0, 0, 0, 0];
    Sent::Call(Call::SetWindows { count, numbers })
}

/// Tables that no unit is made from.
fn refused_tables() -> [Table; 7] {
    let standard = Table::STANDARD;
    [
        standard.of_length(0),
        standard.of_length(standard.length - 1),
        standard.of_length(standard.length + 1),
        standard.with(0x26, 1),
        standard.with(0x48, 255),
        standard.with(0x41, 10),
        standard.with(0x44, 30),
    ]
}

/// Those, and tables, that a fresh unit refuses, with the number.
fn refused() -> Vec<(u8, Sent)> {
    let tables = refused_tables().map(|table| (15, Sent::Load(table)));
    REFUSED.into_iter().chain(tables).collect()
}

/// Events and calls that a fresh unit refuses, with the number.
const REFUSED: [(u8, Sent); 46] = [
    (1, event(3, 0x00, 1, 0)),
    (1, event(3, 0x4f, 0, 0)),
    (2, event(3, 0x48, 0, 0)),
    (3, event(3, 0x40, 2, 0)),
    (4, event(3, 0x44, 30, 0)),
    (4, event(3, 0x45, 26, 0)),
    (5, event(2, 0, 0, 0)),
    (6, event(1, 0, 0, 0)),
    (6, event(1, 9, 1, 0)),
    (6, event(4, 0, 0, 0)),
    (6, event(4, 9, 0, -32_768)),
    (7, event(0, 0xff, 1, 125_000_001)),
    (7, event(0, 0, 0, -125_000_001)),
    (8, event(3, 0x26, 1, 0)),
    (8, event(3, 0x26, 2, 0)),
    (12, event(5, 1, 0, 0)),
    (12, event(255, 0, 0, 0)),
    (12, event(4, 1, 1, 0)),
    (12, event(4, 9, 255, 0)),
    (12, event(4, 1, 0, 32_768)),
    (12, event(4, 8, 0, -32_769)),
    (12, event(4, 9, 0, i32::MIN)),
    (12, event(0, 0, 2, 0)),
    (12, event(3, 0x40, 1, 1)),
    (14, set(4, 8, 6, 4, 1)),
    (14, set(0, 8, 9, 4, 1)),
    (14, set(3, 8, 6, 6, 1)),
    (14, set(1, 8, 6, 7, 1)),
    (14, set(2, 8, 6, 4, 4)),
    (14, assign(8, 4)),
    (6, assign(0, 0)),
    (6, assign(9, 3)),
    (6, assign(9, 4)),
    (16, week(4_725_000)),
    (16, week(u32::MAX)),
    (16, windows(9, [0, 1, 2, 3, 4, 5])),
    (16, windows(255, [0, 1, 2, 3, 4, 5])),
    (16, windows(1, [5, 5, 0, 0, 0, 0])),
    (16, windows(1, [6, 5, 0, 0, 0, 0])),
    (16, windows(1, [5, 4_725_001, 0, 0, 0, 0])),
    (16, windows(1, [0, 4_725_000, 0, 0, 0, 0])),
    (16, windows(2, [0, 1, 1, 2, 0, 0])),
    (16, windows(2, [4, 9, 0, 3, 0, 0])),
    (16, windows(2, [0, 1, 9, 4_725_000, 0, 0])),
    (16, windows(3, [0, 1, 2, 3, 3, 4])),
    (16, windows(4, [1, 2, 3, 4, 5, 6])),
];

#[test]
fn each_refusal_leaves_the_bytes_of_a_fresh_unit() {
    let mut held = Held::fresh_unit();
    for (number, sent) in refused() {
        assert_eq!(held.send(sent), (number, true));
    }
}

/// The numbers of the refusals of events, calls and tables.
fn numbers() -> impl Iterator<Item = u8> {
    (1..=8).chain([12, 14, 15, 16])
}

/// Any bytes, a third of them 0 and a third small: most are a unit that no
/// list of events leads to.
fn any_unit(random: &mut Random) -> Held {
    let byte = |random: &mut Random| random.byte() & random.pick(&[0x00, 0x0f, 0xff]);
    let bytes = [0; SIZE].map(|_| byte(random));
    Held { units: [bytes; 2] }
}

#[test]
fn each_refusal_leaves_the_bytes_of_any_unit() {
    let mut random = Random::new(SEED);
    let refused = refused();
    let mut found = BTreeSet::new();
    for _ in 0..ANY_UNITS {
        let mut held = any_unit(&mut random);
        let (_, sent) = random.pick(&refused);
        let (number, unchanged) = held.send(sent);
        assert!(number == 0 || unchanged, "{} changes a byte", number);
        found.insert(number);
    }
    assert!(numbers().all(|number| found.contains(&number)));
}

/// And each event, call and table leaves the same bytes in both units.
#[test]
fn each_refusal_leaves_the_bytes_in_random_lists() {
    let mut coverage = Coverage::empty();
    let lists = names(SEED, 150, 0);
    let outcome = run_lists(&Held::fresh_unit(), lists, &mut coverage);
    assert_eq!(outcome.map_err(|found| found.to_string()), Ok(()));
    for number in numbers() {
        let names = ["events", "tables"].map(|what| format!("{} refused with {}", what, number));
        let mut counts = coverage.counts().into_iter();
        assert!(
            counts.any(|(item, count)| names.iter().any(|name| name == item) && count > 0),
            "{:?}",
            names
        );
    }
}
