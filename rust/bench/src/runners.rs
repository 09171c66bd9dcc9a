//! What is measured: the real controller and the two models, each running
//! sheets and printing them, and as units in a host's hands.

use crate::lists::{Fields, List, EVENTS};
use model::{fast, table_addresses, BYTES_PER_PAGE, BYTES_PER_RECORD, REGISTERS};

/// More records than a sheet can give.
const RECORDS: usize = 16_384;
/// More pages than the records of a sheet can take.
const PAGES: usize = 200;
/// How often the registers are read.
const READS: usize = 200;

pub struct Runner {
    pub name: &'static str,
    run: fn(&[u8], &mut [u8]) -> usize,
    print: fn(&[u8], &mut [u8], &mut [u8]) -> u8,
    events: fn(&[Fields], &mut [u8]),
    reads: fn(&[Fields]) -> Work,
}

/// What a runner does with a list: with its sheet, which it runs, or runs and
/// prints; or as a host has it, event by event, or reading all registers of the
/// unit that the events left.
#[derive(Clone, Copy)]
pub enum Task {
    Run,
    Print,
    Events,
    Reads,
}

/// A task that is ready to be done, as often as it is called.
pub type Work = Box<dyn FnMut(&mut Outputs)>;

/// What it writes: records, refusals or the registers' bytes, and pages.
#[derive(PartialEq, Eq)]
pub struct Outputs {
    bytes: Vec<u8>,
    pages: Vec<u8>,
}

/// Each is compared with the two models: the plain one, and the one that is
/// written for speed.
const PLAIN: Runner = Runner {
    name: "plain model",
    run: model::run,
    print: model::print,
    events: events::<model::Unit>,
    reads: reads::<model::Unit>,
};
const TUNED: Runner = Runner {
    name: "tuned model",
    run: fast::run,
    print: fast::print,
    events: events::<fast::Unit>,
    reads: reads::<fast::Unit>,
};
#[cfg(feature = "real")]
const REAL: Runner = Runner {
    name: "real controller",
    run: sheets::run,
    print: sheets::print,
    events: events::<controller::Unit>,
    reads: reads::<controller::Unit>,
};

#[cfg(feature = "real")]
pub const RUNNERS: &[Runner] = &[PLAIN, TUNED, REAL];
#[cfg(not(feature = "real"))]
pub const RUNNERS: &[Runner] = &[PLAIN, TUNED];

impl Runner {
    /// The task with a list whose sheet runs.
    pub fn work(&self, task: Task, list: &List) -> Work {
        let (run, print, events) = (self.run, self.print, self.events);
        let (sheet, fields) = (list.sheet(), list.fields());
        match task {
            Task::Run => Box::new(move |out| assert!(run(&sheet, &mut out.bytes) > 0)),
            Task::Print => {
                Box::new(move |out| assert!(print(&sheet, &mut out.bytes, &mut out.pages) == 0))
            }
            Task::Events => Box::new(move |out| events(&fields, &mut out.bytes)),
            Task::Reads => (self.reads)(&fields),
        }
    }
}

/// A unit in a host's hands. Each event and each read is a call, as of a
/// library: it is not compiled into the loops.
trait Lent {
    fn fresh() -> Self;
    fn take(&mut self, kind: u8, a: u8, b: u8, word: i32) -> u8;
    fn byte(&self, address: u8) -> u8;
}

macro_rules! lent {
    ($unit:ty, $event:ident) => {
        impl Lent for $unit {
            fn fresh() -> Self {
                <$unit>::fresh()
            }

            #[inline(never)]
            fn take(&mut self, kind: u8, a: u8, b: u8, word: i32) -> u8 {
                self.$event(kind, a, b, word)
            }

            #[inline(never)]
            fn byte(&self, address: u8) -> u8 {
                self.read(address).1
            }
        }
    };
}

lent!(model::Unit, event_fields);
lent!(fast::Unit, event_fields);
#[cfg(feature = "real")]
lent!(controller::Unit, event);

/// Sends the events to a fresh unit, which it leaves, and writes their refusals.
fn sent<U: Lent>(events: &[Fields], refusals: &mut [u8]) -> U {
    let mut unit = U::fresh();
    for (&(kind, a, b, word), refusal) in events.iter().zip(refusals) {
        *refusal = unit.take(kind, a, b, word);
    }
    unit
}

fn events<U: Lent>(events: &[Fields], refusals: &mut [u8]) {
    sent::<U>(events, refusals);
}

fn reads<U: Lent + 'static>(events: &[Fields]) -> Work {
    let unit: U = sent(events, &mut vec![0; events.len()]);
    let addresses: Vec<_> = table_addresses().collect();
    Box::new(move |out| {
        for bytes in out.bytes.chunks_exact_mut(REGISTERS).take(READS) {
            for (byte, &address) in bytes.iter_mut().zip(&addresses) {
                *byte = unit.byte(address);
            }
        }
    })
}

impl Task {
    pub const ALL: [Task; 4] = [Task::Run, Task::Print, Task::Events, Task::Reads];

    pub fn name(self) -> &'static str {
        match self {
            Task::Run => "run",
            Task::Print => "print",
            Task::Events => "events",
            Task::Reads => "reads",
        }
    }

    /// How many parts it has, and what one is.
    pub fn parts(self) -> (usize, &'static str) {
        match self {
            Task::Reads => (READS, "a read of all"),
            _ => (EVENTS, "an event"),
        }
    }
}

impl Outputs {
    pub fn empty() -> Outputs {
        Outputs {
            bytes: vec![0; BYTES_PER_RECORD * RECORDS],
            pages: vec![0; BYTES_PER_PAGE * PAGES],
        }
    }

    /// As they were before anything was written.
    pub fn clear(&mut self) {
        self.bytes.fill(0);
        self.pages.fill(0);
    }
}
