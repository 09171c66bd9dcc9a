//! The records of a run, as words can tell them.

use crate::sheet::Sheet;
use crate::step::Step;
use controller::STATES;
use sheets::BYTES_PER_RECORD;

/// A record of document 01: the refusal or 0, then the bytes of 0x48, 0x46 and
/// 0x49.
#[derive(Clone, Copy, Debug, PartialEq, Eq)]
pub struct Record {
    pub refusal: u8,
    pub state: u8,
    pub qualified: u8,
    pub status: u8,
}

impl Record {
    fn from_bytes(bytes: &[u8]) -> Record {
        Record {
            refusal: bytes[0],
            state: bytes[1],
            qualified: bytes[2],
            status: bytes[3],
        }
    }

    pub fn state_number(self) -> u8 {
        self.state >> 4
    }

    pub fn state_name(self) -> &'static str {
        state_name(self.state_number())
    }

    /// 0 is none, 9 Free Run.
    pub fn selected(self) -> u8 {
        self.state & 15
    }

    pub fn alarm(self) -> bool {
        self.status & 1 != 0
    }

    pub fn ready(self) -> bool {
        self.status & 4 != 0
    }

    pub fn backup_held(self) -> bool {
        self.status & 8 != 0
    }
}

/// The name of a state, by its number.
pub fn state_name(number: u8) -> &'static str {
    STATES.get(usize::from(number)).unwrap_or(&"?")
}

/// What is selected, in words.
pub fn selected_name(selected: u8) -> String {
    match selected {
        0 => "none".to_string(),
        9 => "Free Run".to_string(),
        input => input.to_string(),
    }
}

/// A record with the accepted ticks up to it, its own included.
#[derive(Clone, Copy, Debug, PartialEq, Eq)]
pub struct Timed {
    pub ticks: u64,
    pub record: Record,
}

/// Runs a sheet that the check lets through.
pub fn run(sheet: &Sheet) -> Vec<Timed> {
    let mut output = vec![0; BYTES_PER_RECORD * sheet.steps().count()];
    let written = sheets::run(&sheet.to_bytes(), &mut output);
    let records = output[..written].chunks(BYTES_PER_RECORD);
    let mut ticks = 0;
    let timed = |(step, bytes): (Step, _)| {
        let record = Record::from_bytes(bytes);
        ticks += step.ticks(record.refusal);
        Timed { ticks, record }
    };
    let steps = sheet.steps().map(Step::Event);
    steps.zip(records).map(timed).collect()
}
