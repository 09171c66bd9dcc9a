//! What the sheets have reached: how often each number, each kind of damage,
//! each kind and each refusal of an event, each length of an output and each
//! text came.

mod pages;

pub use pages::Pages;

use crate::damage::Damage;
use crate::rack::Feed;
use crate::room::Room;
use crate::sheet;
use differ::report::never_reached;
use model::{Record, BYTES_PER_EVENT, LONGEST_SHEET};

/// The numbers that a sheet can be answered with.
const NUMBERS: [u8; 6] = [0, 9, 10, 11, 12, 13];
/// The most records a sheet can give: 256 settings and 8,127 events.
const MOST_RECORDS: usize = 8_383;
/// The kinds of events: 0 to 4.
const KINDS: usize = 5;
/// Which measurements a sheet has, by their kinds.
const MEASUREMENTS: [(&str, fn(&[bool; KINDS]) -> bool); 3] = [
    ("the old kind alone", |has| has[1] && !has[4]),
    ("the finer kind alone", |has| !has[1] && has[4]),
    ("both kinds", |has| has[1] && has[4]),
];
/// The lengths of sheets that the rack program must have seen.
const RACK_LENGTHS: [usize; 6] = [0, 1, LONGEST_SHEET, 65_536, 70_000, 200_000];

/// How often each of 0 to 13 came.
type Tally = [u64; 14];

pub struct Coverage {
    pub whole: u64,
    pub damaged: u64,
    pub records: u64,
    /// How many sheets gave the most records there can be.
    fullest: u64,
    /// The answers to checks.
    checks: Tally,
    /// The name of each kind of damage, and the numbers of sheets that took it.
    damages: Vec<(String, Tally)>,
    /// The refusals in the records.
    refusals: Tally,
    /// The events of each kind, accepted and refused.
    kinds: [[u64; 2]; KINDS],
    /// The sheets with such measurements.
    measured: [u64; MEASUREMENTS.len()],
    runs: [u64; 4],
    pub pages: Pages,
    feeds: [u64; 2],
    printed: Tally,
    printed_lengths: [u64; 6],
}

impl Coverage {
    pub fn empty(damages: &[Damage]) -> Coverage {
        let damages = damages.iter().map(|damage| (damage.name.clone(), [0; 14]));
        Coverage {
            whole: 0,
            damaged: 0,
            records: 0,
            fullest: 0,
            checks: [0; 14],
            damages: damages.collect(),
            refusals: [0; 14],
            kinds: [[0; 2]; KINDS],
            measured: [0; MEASUREMENTS.len()],
            runs: [0; 4],
            pages: Pages::default(),
            feeds: [0; 2],
            printed: [0; 14],
            printed_lengths: [0; 6],
        }
    }

    /// A sheet that took this damage, or none, and its number if the output
    /// has room.
    pub fn note_sheet(&mut self, damage: Option<usize>, number: u8) {
        match damage {
            Some(index) => {
                self.damaged += 1;
                self.damages[index].1[usize::from(number)] += 1;
            }
            None => self.whole += 1,
        }
    }

    pub fn note_records(&mut self, records: &[Record]) {
        self.records += records.len() as u64;
        self.fullest += u64::from(records.len() == MOST_RECORDS);
        for record in records {
            self.refusals[usize::from(record[0])] += 1;
        }
    }

    /// The events of a sheet that gives these records.
    pub fn note_events(&mut self, sheet: &[u8], records: &[Record]) {
        let settings = usize::from(u16::from_le_bytes([sheet[0], sheet[1]]));
        let events = sheet[sheet::length(settings, 0)..].chunks_exact(BYTES_PER_EVENT);
        let mut has = [false; KINDS];
        for (event, record) in events.zip(&records[settings..]) {
            let kind = usize::from(event[0]);
            has[kind] = true;
            self.kinds[kind][usize::from(record[0] > 0)] += 1;
        }
        for (count, (_, holds)) in self.measured.iter_mut().zip(MEASUREMENTS) {
            *count += u64::from(holds(&has));
        }
    }

    pub fn note_check(&mut self, number: u8) {
        self.checks[usize::from(number)] += 1;
    }

    pub fn note_run(&mut self, room: Room) {
        self.runs[room as usize] += 1;
    }

    /// A text of the rack program for a sheet of this number and length.
    pub fn note_printed(&mut self, feed: Feed, number: u8, length: usize) {
        self.feeds[feed as usize] += 1;
        self.printed[usize::from(number)] += 1;
        for (count, &of) in self.printed_lengths.iter_mut().zip(&RACK_LENGTHS) {
            *count += u64::from(of == length);
        }
    }

    pub fn checks(&self) -> u64 {
        self.checks.iter().sum()
    }

    pub fn runs(&self) -> u64 {
        self.runs.iter().sum()
    }

    pub fn texts(&self) -> u64 {
        self.feeds.iter().sum()
    }

    /// Each item with its count; those of the rack program only if there is
    /// one.
    pub fn counts(&self, with_rack: bool) -> Vec<(String, u64)> {
        let mut list = Vec::new();
        let of = |tally: &Tally, number: u8| tally[usize::from(number)];
        list.extend(NUMBERS.map(|n| (format!("checks answered {}", n), of(&self.checks, n))));
        let damages = self.damages.iter().map(|(name, tally)| {
            let name = format!("{} (answered {})", name, numbers(tally));
            (name, tally.iter().sum())
        });
        list.extend(damages);
        let refusals = (0..=8).map(|n| (format!("records with {}", n), of(&self.refusals, n)));
        list.extend(refusals);
        for (kind, counts) in self.kinds.iter().enumerate() {
            let answers = ["accepted", "refused"].iter().zip(counts);
            list.extend(
                answers.map(|(answer, &n)| (format!("events of kind {} {}", kind, answer), n)),
            );
        }
        let measured = MEASUREMENTS.iter().zip(self.measured);
        list.extend(
            measured.map(|((name, _), n)| (format!("sheets with measurements of {}", name), n)),
        );
        let rooms = Room::ALL.map(|room| {
            let name = format!("runs with an output {}", room.name());
            (name, self.runs[room as usize])
        });
        list.extend(rooms);
        let name = format!("sheets of {} records, the most there can be", MOST_RECORDS);
        list.push((name, self.fullest));
        list.extend(self.pages.counts());
        if with_rack {
            list.extend(self.rack_counts());
        }
        list
    }

    fn rack_counts(&self) -> Vec<(String, u64)> {
        let mut list = Vec::new();
        let fed = Feed::ALL.map(|feed| {
            let name = format!("texts of the rack program, fed {}", feed);
            (name, self.feeds[feed as usize])
        });
        list.extend(fed);
        let numbers = NUMBERS.iter().filter(|&&number| number != 13);
        let printed = numbers.map(|&number| {
            let name = match number {
                0 => "texts `records N`".to_string(),
                _ => format!("texts `refused {}`", number),
            };
            (name, self.printed[usize::from(number)])
        });
        list.extend(printed);
        let lengths = RACK_LENGTHS.iter().zip(self.printed_lengths);
        list.extend(lengths.map(|(of, n)| (format!("texts for sheets of {} bytes", of), n)));
        list
    }

    /// The names of the items that were never reached.
    pub fn missing(&self, with_rack: bool) -> Vec<String> {
        never_reached(self.counts(with_rack))
    }
}

/// The numbers that came, each with how often: "9: 3, 10: 40".
fn numbers(tally: &Tally) -> String {
    let came = tally.iter().enumerate().filter(|(_, &count)| count > 0);
    let text: Vec<_> = came.map(|(n, count)| format!("{}: {}", n, count)).collect();
    text.join(", ")
}
