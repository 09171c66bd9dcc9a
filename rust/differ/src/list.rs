//! One list of events, calls and tables on its way: sent to the pair one by
//! one, the answers compared, what was reached noted.

use crate::coverage::{Coverage, Moment};
use crate::device::Device;
use crate::difference::{Difference, Mismatch, Name};
use crate::draw;
use crate::pair::Pair;
use crate::sent::Sent;
use crate::table::Table;
use model::{BucketSet, Call, Event, Unit, SAMPLE_LIMIT};
use shared::random::Random;

/// Nothing, or the difference that ends the list.
pub type Step = Result<(), Box<Difference>>;

/// Read after every event: hours, masks, state and selected, flags, count.
const READ_EACH_TIME: [u8; 6] = [0x27, 0x46, 0x47, 0x48, 0x49, 0x4e];
/// One event in so many is followed by a reading of the whole map.
const MAP_ONE_IN: u32 = 16;
/// One event in so many is followed by a reading of all 256 addresses.
const ALL_ONE_IN: u32 = 1_000;

/// From which numbers the samples of ticks are drawn.
const SAMPLE_RANGES: [(i32, i32); 8] = [
    (0, 0),
    (-2, 2),
    (-3, 0),
    (0, 3),
    (-SAMPLE_LIMIT, SAMPLE_LIMIT),
    (SAMPLE_LIMIT, SAMPLE_LIMIT),
    (-SAMPLE_LIMIT, -SAMPLE_LIMIT),
    (-SAMPLE_LIMIT, -SAMPLE_LIMIT + 9),
];

/// What goes on beside the present phase of a list.
#[derive(Clone, Copy)]
pub struct Habits {
    /// The range of the samples.
    samples: (i32, i32),
    /// Inputs that are irregular now and then.
    pub flicker: u8,
    /// One tick in so many follows an event that does not disturb the course;
    /// 0 for none.
    pub strays: u32,
}

pub struct List<'a, D> {
    pub random: Random,
    pub habits: Habits,
    pair: Pair<D>,
    name: Name,
    /// How many events, calls and tables were sent, and the last of them.
    sent: u64,
    last: Option<Sent>,
    /// Whether the unit was made from a table, and no write was accepted since.
    unwritten: bool,
    coverage: &'a mut Coverage,
    record: Option<Vec<Sent>>,
}

impl<'a, D: Device> List<'a, D> {
    /// The list of this name, at its beginning, for a device of this make.
    pub fn fresh(make: &D, name: Name, coverage: &'a mut Coverage) -> List<'a, D> {
        List {
            random: Random::new(name.seed),
            habits: Habits {
                samples: (0, 0),
                flicker: 0,
                strays: 0,
            },
            pair: Pair::fresh(make),
            name,
            sent: 0,
            last: None,
            unwritten: false,
            coverage,
            record: None,
        }
    }

    /// From now on keeps what is sent.
    pub fn keep_record(&mut self) {
        self.record = Some(Vec::new());
    }

    pub fn into_record(self) -> Vec<Sent> {
        self.record.unwrap_or_default()
    }

    pub fn name(&self) -> Name {
        self.name
    }

    /// The model, to see how far the list has come.
    pub fn unit(&self) -> &Unit {
        &self.pair.model
    }

    pub fn sent(&self) -> u64 {
        self.sent
    }

    /// Sends an event's fields, a call or a table to both, compares, notes what
    /// was reached.
    pub fn send(&mut self, sent: impl Into<Sent>) -> Step {
        let sent = sent.into();
        if let Some(record) = &mut self.record {
            record.push(sent);
        }
        self.sent += 1;
        self.last = Some(sent);
        let refusal = self.compare(sent).map_err(|found| self.difference(found))?;
        if refusal == 0 {
            self.unwritten = sent.table().is_some() || self.unwritten && !is_write(sent);
        }
        self.coverage.note(&Moment {
            before: &self.pair.model_before,
            fields: sent.fields(),
            event: sent.event(),
            call: sent.call(),
            table: sent.table(),
            unwritten: self.unwritten,
            refusal,
            after: &self.pair.model,
            old: &self.pair.old,
            old_refusal: self.pair.old_refusal,
        });
        Ok(())
    }

    fn compare(&mut self, sent: Sent) -> Result<u8, Mismatch> {
        let refusal = self.pair.send(sent)?;
        for address in READ_EACH_TIME {
            self.pair.read(address)?;
        }
        if self.random.one_in(MAP_ONE_IN) {
            self.pair.read_map()?;
        }
        if self.random.one_in(ALL_ONE_IN) {
            self.pair.read_all()?;
        }
        Ok(refusal)
    }

    fn difference(&self, mismatch: Mismatch) -> Box<Difference> {
        Box::new(Difference {
            name: self.name,
            last: self.last.map(|sent| (self.sent - 1, sent)),
            mismatch,
        })
    }

    /// Reads all 256 addresses of both.
    pub fn read_all(&mut self) -> Step {
        self.pair.read_all().map_err(|found| self.difference(found))
    }

    /// Gives the counts of the list to the coverage.
    pub fn close(&mut self) {
        self.coverage.add_list(self.sent, &self.pair.reads);
    }

    /// A tick with these irregular inputs and the habits of the list.
    pub fn tick(&mut self, irregular: u8, lock: bool) -> Step {
        if self.habits.strays > 0 && self.random.one_in(self.habits.strays) {
            let stray = draw::stray(&mut self.random);
            self.send(stray)?;
        }
        let flicker = self.habits.flicker & self.random.byte() & self.random.byte();
        let (low, high) = self.habits.samples;
        let sample = low + self.random.below((high - low + 1) as u32) as i32;
        self.event(Event::Tick {
            mask: irregular | flicker,
            lock,
            sample,
        })
    }

    /// Ticks with nothing irregular but what flickers.
    pub fn ticks(&mut self, count: u32, lock: bool) -> Step {
        for _ in 0..count {
            self.tick(0, lock)?;
        }
        Ok(())
    }

    pub fn event(&mut self, event: Event) -> Step {
        self.send(event)
    }

    pub fn set_bucket(&mut self, set: u8, numbers: BucketSet) -> Step {
        self.send(Call::SetBucket { set, numbers })
    }

    pub fn assign_bucket(&mut self, input: u8, set: u8) -> Step {
        self.send(Call::AssignBucket { input, set })
    }

    pub fn set_week(&mut self, place: u32) -> Step {
        self.send(Call::SetWeek { place })
    }

    pub fn load(&mut self, table: Table) -> Step {
        self.send(table)
    }

    pub fn measure(&mut self, input: u8, offset: i8) -> Step {
        self.event(Event::Measurement { input, offset })
    }

    pub fn write(&mut self, address: u8, value: u8) -> Step {
        self.event(Event::Write { address, value })
    }

    /// Draws the range of the samples anew.
    pub fn change_samples(&mut self) {
        self.habits.samples = self.random.pick(&SAMPLE_RANGES);
    }
}

fn is_write(sent: Sent) -> bool {
    matches!(sent.event(), Some(Event::Write { .. }))
}
