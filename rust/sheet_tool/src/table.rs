//! The records of a run as a table: `run`.

use crate::records::{selected_name, Timed};
use crate::time::seconds;
use controller::reason;
use shared::runs::{runs, Run};

/// The columns' titles and widths; numbers stand to the right. The last column
/// is as wide as what stands in it.
const COLUMNS: [(&str, usize); 11] = [
    ("first", 5),
    ("last", 5),
    ("from s", 8),
    ("to s", 8),
    ("state", 12),
    ("selected", 8),
    ("qualified", 9),
    ("alarm", 5),
    ("Ready", 5),
    ("backup", 6),
    ("refusal", 0),
];
const NUMBERS: usize = 4;

/// A title line, and a line for each record or for each run of equal ones.
pub fn table(records: &[Timed], all: bool) -> String {
    let equal = |one: &Timed, other: &Timed| !all && one.record == other.record;
    let lines = runs(records, equal)
        .into_iter()
        .map(|run| line(cells(records, run)));
    let titles = line(COLUMNS.map(|(title, _)| title.to_string()));
    std::iter::once(titles).chain(lines).collect()
}

/// What stands in the line of a run: the indices of its first and last record
/// and their times, and what the records say.
fn cells(records: &[Timed], run: Run) -> [String; COLUMNS.len()] {
    let (first, last) = (records[run.first], records[run.last]);
    let record = last.record;
    let flag = |set, name: &str| if set { name } else { "-" }.to_string();
    [
        run.first.to_string(),
        run.last.to_string(),
        seconds(first.ticks),
        seconds(last.ticks),
        record.state_name().to_string(),
        selected_name(record.selected()),
        inputs(record.qualified),
        flag(record.alarm(), "alarm"),
        flag(record.ready(), "Ready"),
        flag(record.backup_held(), "held"),
        refusal(record.refusal),
    ]
}

/// The inputs of a mask, each in its place.
fn inputs(mask: u8) -> String {
    let input = |bit| {
        if mask >> bit & 1 == 1 {
            b'1' + bit
        } else {
            b'.'
        }
    };
    (0..8).map(|bit| char::from(input(bit))).collect()
}

fn refusal(number: u8) -> String {
    match number {
        0 => "0".to_string(),
        number => format!("{} {}", number, reason(number)),
    }
}

fn line(cells: [String; COLUMNS.len()]) -> String {
    let mut text = String::new();
    for (index, (cell, (_, width))) in cells.iter().zip(COLUMNS).enumerate() {
        if index > 0 {
            text += "  ";
        }
        text += &if index < NUMBERS {
            format!("{:>1$}", cell, width)
        } else {
            format!("{:<1$}", cell, width)
        };
    }
    text + "\n"
}
