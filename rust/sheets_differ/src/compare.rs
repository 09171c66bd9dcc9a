//! One sheet given to the model and to a runner, and to the rack program; all
//! that comes back is compared.

use crate::coverage::Coverage;
use crate::difference::{Mismatch, Output};
use crate::lent::Lent;
use crate::rack::{Feed, Rack};
use crate::room::Room;
use crate::runner::Runner;
use model::{pages_of, Record, BYTES_PER_PAGE, BYTES_PER_RECORD};
use shared::random::Random;

/// A sheet, and the records that the model gives for it: none if it refuses it.
pub struct Given<'a> {
    sheet: &'a [u8],
    records: Option<Vec<Record>>,
}

impl<'a> Given<'a> {
    pub fn of(sheet: &'a [u8]) -> Given<'a> {
        let records = model::records(sheet).ok();
        Given { sheet, records }
    }
}

/// What is compared with the model: a runner, and perhaps a rack program.
pub struct Against<'a, R> {
    pub runner: &'a R,
    pub rack: Option<&'a dyn Rack>,
}

impl<R: Runner> Against<'_, R> {
    /// Checks and runs with several lengths of the output.
    pub fn compare_runs(
        &self,
        random: &mut Random,
        given: &Given,
        coverage: &mut Coverage,
    ) -> Result<(), Mismatch> {
        let sheet = given.sheet;
        let exact = match &given.records {
            Some(records) => {
                coverage.note_records(records);
                coverage.note_events(sheet, records);
                BYTES_PER_RECORD * records.len()
            }
            // A refused sheet has no records: any length will do for it.
            None => random.below(400) as usize,
        };
        for length in [1, exact / 2, exact + 1, exact + 4, 65_536, usize::MAX] {
            self.compare_check(sheet, length, coverage)?;
        }
        for room in Room::ALL {
            if let Some(length) = room.length(exact, random) {
                coverage.note_run(room);
                self.compare_check(sheet, length, coverage)?;
                self.compare_run(random, sheet, length)?;
            }
        }
        Ok(())
    }

    fn compare_check(
        &self,
        sheet: &[u8],
        output_len: usize,
        coverage: &mut Coverage,
    ) -> Result<(), Mismatch> {
        let model = model::check(sheet, output_len);
        let runner = self.runner.check(sheet, output_len);
        coverage.note_check(model);
        if model == runner {
            return Ok(());
        }
        Err(Mismatch::Check {
            output_len,
            model,
            runner,
        })
    }

    /// Both run the sheet.
    fn compare_run(
        &self,
        random: &mut Random,
        sheet: &[u8],
        output_len: usize,
    ) -> Result<(), Mismatch> {
        let mut output = Lent::any(random, Output::Run, output_len);
        let model = model::run(sheet, output.to_model());
        let runner = self.runner.run(sheet, output.to_runner());
        if model != runner {
            return Err(Mismatch::Written {
                output_len,
                model,
                runner,
            });
        }
        output.compare()
    }

    /// Prints with several lengths of both outputs.
    pub fn compare_prints(
        &self,
        random: &mut Random,
        given: &Given,
        coverage: &mut Coverage,
    ) -> Result<(), Mismatch> {
        let (exact_records, exact_pages) = match &given.records {
            Some(records) => {
                coverage.pages.note_records(records);
                let count = records.len();
                (BYTES_PER_RECORD * count, BYTES_PER_PAGE * pages_of(count))
            }
            None => (random.below(400) as usize, random.below(4_000) as usize),
        };
        for (records_room, pages_room) in Room::pairs(random) {
            let records_len = records_room.length(exact_records, random);
            let pages_len = pages_room.length(exact_pages, random);
            if let (Some(records_len), Some(pages_len)) = (records_len, pages_len) {
                let number = self.compare_print(random, given.sheet, records_len, pages_len)?;
                coverage.pages.note_print(records_room, pages_room, number);
            }
        }
        Ok(())
    }

    /// Both print the sheet: the number.
    fn compare_print(
        &self,
        random: &mut Random,
        sheet: &[u8],
        records_len: usize,
        pages_len: usize,
    ) -> Result<u8, Mismatch> {
        let mut records = Lent::any(random, Output::Records, records_len);
        let mut pages = Lent::any(random, Output::Pages, pages_len);
        let model = model::print(sheet, records.to_model(), pages.to_model());
        let runner = self
            .runner
            .print(sheet, records.to_runner(), pages.to_runner());
        if model != runner {
            return Err(Mismatch::Print {
                records_len,
                pages_len,
                model,
                runner,
            });
        }
        records.compare()?;
        pages.compare()?;
        Ok(model)
    }

    /// The text of the rack program, fed in each way.
    pub fn compare_texts(&self, sheet: &[u8], coverage: &mut Coverage) -> Result<(), Mismatch> {
        let rack = match self.rack {
            Some(rack) => rack,
            None => return Ok(()),
        };
        let expected = model::printed(sheet);
        let number = model::check(sheet, usize::MAX);
        for feed in Feed::ALL {
            coverage.note_printed(feed, number, sheet.len());
            let text = rack.print(sheet, feed).map_err(|error| {
                let error = error.to_string();
                Mismatch::NoText { feed, error }
            })?;
            compare_lines(feed, expected.as_bytes(), &text)?;
        }
        Ok(())
    }
}

/// The first line that is not the same.
fn compare_lines(feed: Feed, expected: &[u8], text: &[u8]) -> Result<(), Mismatch> {
    if expected == text {
        return Ok(());
    }
    let mut expected = lines(expected);
    let mut found = lines(text);
    let mut line = 1;
    loop {
        let (model, rack) = (expected.next(), found.next());
        if model != rack {
            return Err(Mismatch::Line {
                feed,
                line,
                model: shown(model),
                rack: shown(rack),
            });
        }
        line += 1;
    }
}

/// The lines with their line feeds.
fn lines(text: &[u8]) -> impl Iterator<Item = &[u8]> {
    text.split_inclusive(|&byte| byte == b'\n')
}

fn shown(line: Option<&[u8]>) -> String {
    String::from_utf8_lossy(line.unwrap_or_default()).into_owned()
}
