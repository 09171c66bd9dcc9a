//! What the prints have reached: each number, each length of both outputs, each
//! kind of page and each kind of line.

use super::{Tally, NUMBERS};
use crate::room::Room;
use model::{Record, State, LINES_PER_PAGE};

/// The pages of a sheet, by how many records it gives.
const PAGES: [(&str, fn(usize) -> bool); 4] = [
    ("no page", |records| records == 0),
    ("a last page that is exactly full", |records| {
        records > 0 && records % LINES_PER_PAGE == 0
    }),
    ("a last page filled with blank lines", |records| {
        records % LINES_PER_PAGE > 0
    }),
    ("several pages", |records| records > LINES_PER_PAGE),
];

/// The line of a record; those with each state's name are counted beside.
const LINES: [(&str, fn(&Record) -> bool); 4] = [
    ("selected 0", |record| record[1] % 16 == 0),
    ("selected 9", |record| record[1] % 16 == 9),
    ("a refusal", |record| record[0] > 0),
    ("a letter in 0x49", |record| record[3] % 16 > 9),
];

/// Which output is too short.
const SHORT: [&str; 3] = ["the records' alone", "the pages' alone", "both"];

#[derive(Default)]
pub struct Pages {
    /// The answers to prints.
    numbers: Tally,
    records_rooms: [u64; 4],
    pages_rooms: [u64; 4],
    short: [u64; SHORT.len()],
    pages: [u64; PAGES.len()],
    states: [u64; State::ALL.len()],
    lines: [u64; LINES.len()],
}

impl Pages {
    /// A print with such outputs, answered with this number.
    pub fn note_print(&mut self, records: Room, pages: Room, number: u8) {
        self.numbers[usize::from(number)] += 1;
        self.records_rooms[records as usize] += 1;
        self.pages_rooms[pages as usize] += 1;
        if number == 13 {
            let which = match (records.suffices(), pages.suffices()) {
                (false, true) => 0,
                (true, false) => 1,
                _ => 2,
            };
            self.short[which] += 1;
        }
    }

    /// The records of a sheet that is printed.
    pub fn note_records(&mut self, records: &[Record]) {
        for (count, (_, holds)) in self.pages.iter_mut().zip(PAGES) {
            *count += u64::from(holds(records.len()));
        }
        for record in records {
            self.states[usize::from(record[1] / 16)] += 1;
            for (count, (_, holds)) in self.lines.iter_mut().zip(LINES) {
                *count += u64::from(holds(record));
            }
        }
    }

    pub fn prints(&self) -> u64 {
        self.numbers.iter().sum()
    }

    /// Each item with its count.
    pub fn counts(&self) -> Vec<(String, u64)> {
        let mut list = Vec::new();
        list.extend(NUMBERS.map(|number| {
            let name = format!("prints answered {}", number);
            (name, self.numbers[usize::from(number)])
        }));
        let outputs = [("records", self.records_rooms), ("pages", self.pages_rooms)];
        for (output, counts) in outputs {
            list.extend(Room::ALL.map(|room| {
                let name = format!("prints with an output for {} {}", output, room.name());
                (name, counts[room as usize])
            }));
        }
        let short = SHORT.iter().zip(self.short);
        list.extend(short.map(|(which, n)| (format!("prints answered 13 for {}", which), n)));
        let pages = PAGES.iter().zip(self.pages);
        list.extend(pages.map(|((name, _), n)| (format!("printed sheets with {}", name), n)));
        let states = State::ALL.iter().zip(self.states);
        list.extend(states.map(|(state, n)| (format!("printed lines with {}", state.name()), n)));
        let lines = LINES.iter().zip(self.lines);
        list.extend(lines.map(|((name, _), n)| (format!("printed lines with {}", name), n)));
        list
    }
}
