//! The tuned model, and the whole of its state beside the plain model's.

use differ::device::Device;
use differ::table::Table;
use model::{fast, Blocks, Call, History, Input, OpenBlock, Unit};

/// The tuned model with a plain one beside it. An event, call or table after
/// which they do not agree is answered by a refusal that there is not.
#[derive(Clone, PartialEq)]
pub struct Beside {
    tuned: fast::Unit,
    plain: Unit,
}

const STATES_DISAGREE: u8 = 255;

impl Beside {
    pub fn fresh_pair() -> Beside {
        Beside {
            tuned: fast::Unit::fresh(),
            plain: Unit::fresh(),
        }
    }

    /// The refusal, if the states agree.
    fn answer(&self, refusal: u8) -> u8 {
        let bytes = [0x48, 0x46, 0x49].map(|address| self.plain.read(address).1);
        let record = [refusal, bytes[0], bytes[1], bytes[2]];
        if as_plain(&self.tuned) == self.plain && self.tuned.record(refusal) == record {
            refusal
        } else {
            STATES_DISAGREE
        }
    }
}

/// The tuned model's state as the plain one keeps it.
fn as_plain(tuned: &fast::Unit) -> Unit {
    let (monitors, history) = (&tuned.monitors, &tuned.history);
    let input = |i: usize| Input {
        level: monitors.level[i] as u8,
        decay: monitors.decay[i] as u8,
        activity_alarm: monitors.activity_alarm[i] == 1,
        frequency_alarm: monitors.frequency_alarm[i] == 1,
        remainder: monitors.remainder[i] as u16,
        soak: monitors.soak[i] as u8,
    };
    let blocks = |blocks: &fast::Blocks| -> Blocks { blocks.iter().collect() };
    Unit {
        inputs: [0, 1, 2, 3, 4, 5, 6, 7].map(input),
        buckets: tuned.sets.buckets,
        pll: tuned.pll,
        selected: tuned.selected,
        wait: tuned.wait,
        week: tuned.week.clone(),
        history: History {
            open: OpenBlock {
                sum: history.open_sum,
                samples: history.open_samples,
            },
            kept: blocks(&history.kept),
            building: history.building().map(blocks),
            backup: history.backup.as_ref().map(blocks),
            last_reference: history.last_reference,
        },
        holdover_ticks: tuned.holdover_ticks,
        settings: tuned.settings,
    }
}

impl Device for Beside {
    fn name(&self) -> &'static str {
        "tuned model"
    }

    fn fresh(&self) -> Beside {
        Beside::fresh_pair()
    }

    fn event(&mut self, kind: u8, a: u8, b: u8, word: i32) -> u8 {
        self.plain.event_fields(kind, a, b, word);
        let refusal = self.tuned.event_fields(kind, a, b, word);
        self.answer(refusal)
    }

    fn call(&mut self, call: Call) -> u8 {
        self.plain.call(&call);
        let refusal = self.tuned.call(&call);
        self.answer(refusal)
    }

    fn load(&mut self, table: Table) -> u8 {
        let table = table.bytes();
        self.plain.load(&table);
        let refusal = self.tuned.load(&table);
        self.answer(refusal)
    }

    fn read(&self, address: u8) -> (u8, u8) {
        self.tuned.read(address)
    }
}
