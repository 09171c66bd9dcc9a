//! The controller and the fields of the state that it shares with its host, beside
//! the model's.

use controller::Set;
use differ::device::Device;
use differ::table::Table;
use model::{Blocks, BucketSet, Call, Window};

/// The controller with a model beside it. An event, call or table after which
/// their fields do not agree is answered by a refusal that there is not.
#[derive(Clone, PartialEq)]
pub struct Inspected {
    controller: controller::Unit,
    model: model::Unit,
}

const FIELDS_DISAGREE: u8 = 255;

impl Inspected {
    pub fn fresh_pair() -> Inspected {
        Inspected {
            controller: controller::Unit::fresh(),
            model: model::Unit::fresh(),
        }
    }

    /// The refusal, if the fields agree.
    fn answer(&self, refusal: u8) -> u8 {
        let fields_agree = self.inputs_agree()
            && self.buckets_agree()
            && self.history_agrees()
            && self.selection_agrees()
            && self.week_agrees();
        if fields_agree {
            refusal
        } else {
            FIELDS_DISAGREE
        }
    }

    fn inputs_agree(&self) -> bool {
        let monitors = &self.controller.monitors;
        self.model.inputs.iter().enumerate().all(|(i, input)| {
            monitors.level[i] == u16::from(input.level)
                && monitors.decay[i] == u16::from(input.decay)
                && monitors.activity[i] == u16::from(input.activity_alarm)
                && monitors.frequency[i] == u16::from(input.frequency_alarm)
                && monitors.remainder[i] == input.remainder
                && monitors.soak[i] == u16::from(input.soak)
        })
    }

    fn buckets_agree(&self) -> bool {
        let (stored, buckets) = (&self.controller.buckets, &self.model.buckets);
        let kept = |set: BucketSet| Set {
            size: set.size,
            set_level: set.set_level,
            clear_level: set.clear_level,
            decay_last: set.decay_ticks() - 1,
        };
        stored.sets == buckets.sets.map(kept) && stored.assigned == buckets.assigned.map(u16::from)
    }

    fn history_agrees(&self) -> bool {
        let (unit, history) = (&self.controller, &self.model.history);
        let (tally, stored) = (&unit.core.tally, &unit.history);
        let none = Blocks::new();
        let building = history.building.as_ref();
        let backup = history.backup.as_ref();
        tally.open == history.open.sum
            && u32::from(tally.filled) == history.open.samples
            && (tally.builds != 0) == building.is_some()
            && blocks_agree(&stored.sums, tally.count, &history.kept)
            && blocks_agree(&stored.building, tally.built, building.unwrap_or(&none))
            && blocks_agree(&stored.backup, tally.backed, backup.unwrap_or(&none))
            && tally.last == history.last_reference.unwrap_or(0)
            && tally.command == self.model.settings.command
    }

    fn selection_agrees(&self) -> bool {
        let (core, model) = (&self.controller.core, &self.model);
        let wait = model.wait;
        core.choice.selected == u32::from(model.selected)
            && core.choice.wait == wait.ticks
            && (wait.ticks == 0 || core.choice.awaited == u32::from(wait.best))
            && u64::from(core.holding) == model.holdover_ticks
            && core.pll.mode == model.pll.state as u32
            && core.pll.lock == u32::from(model.pll.lock_run)
            && core.pll.unlock == u32::from(model.pll.unlock_run)
    }

    /// The windows in their order, then 0 and 0.
    fn week_agrees(&self) -> bool {
        let (unit, week) = (&self.controller, &self.model.week);
        let none = Window::of(0, 0);
        let windows = week.windows.iter().chain(std::iter::repeat(&none));
        let numbers = windows.flat_map(|window| [window.start, window.end]);
        let all = unit.windows.len();
        unit.core.place == week.place && numbers.take(all).eq(unit.windows)
    }
}

/// The first sums that are counted, the newest first, are these blocks.
fn blocks_agree(sums: &[i64; 64], count: u8, blocks: &Blocks) -> bool {
    sums[..usize::from(count)].iter().eq(blocks.iter().rev())
}

impl Device for Inspected {
    fn name(&self) -> &'static str {
        "controller and its fields"
    }

    fn fresh(&self) -> Inspected {
        Inspected::fresh_pair()
    }

    fn event(&mut self, kind: u8, a: u8, b: u8, word: i32) -> u8 {
        let refusal = self.controller.event(kind, a, b, word);
        self.model.event_fields(kind, a, b, word);
        self.answer(refusal)
    }

    fn call(&mut self, call: Call) -> u8 {
        let refusal = Device::call(&mut self.controller, call);
        self.model.call(&call);
        self.answer(refusal)
    }

    fn load(&mut self, table: Table) -> u8 {
        let table = table.bytes();
        let refusal = self.controller.load(&table);
        self.model.load(&table);
        self.answer(refusal)
    }

    fn read(&self, address: u8) -> (u8, u8) {
        self.controller.read(address)
    }
}
