//! What the lists have reached: a table of items, each with the condition that
//! counts an event for it.

mod buckets;
mod busy_hours;
mod histories;
mod readings;
mod tables;

use crate::fields::Fields;
use crate::report::never_reached;
use crate::table::Table;
use model::{
    wait_limit, Call, Event, OldUnit, State, Unit, BLOCKS_KEPT, LOCK_ALARM_TICKS,
    SAMPLES_PER_BLOCK, TICKS_PER_HOUR,
};

/// An event, a call or a table with the model's state before and after it, and
/// what the old rules of the history made of it.
pub struct Moment<'a> {
    pub before: &'a Unit,
    /// None for a call and a table.
    pub fields: Option<Fields>,
    /// None for a call and a table, and if the fields were no event.
    pub event: Option<Event>,
    pub call: Option<Call>,
    pub table: Option<Table>,
    /// Whether the unit was made from a table, and no write was accepted since.
    pub unwritten: bool,
    pub refusal: u8,
    pub after: &'a Unit,
    pub old: &'a OldUnit,
    pub old_refusal: u8,
}

impl Moment<'_> {
    fn accepted_tick(&self) -> bool {
        self.refusal == 0 && matches!(self.event, Some(Event::Tick { .. }))
    }

    fn accepted_hit(&self) -> bool {
        self.refusal == 0 && self.event == Some(Event::Hit)
    }

    fn manual_tick(&self) -> bool {
        self.accepted_tick() && !self.after.settings.automatic()
    }

    fn automatic_tick(&self) -> bool {
        self.accepted_tick() && self.after.settings.automatic()
    }

    /// A write to the address with the value, answered by the refusal.
    fn write(&self, address: u8, value: u8, refusal: u8) -> bool {
        self.event == Some(Event::Write { address, value }) && self.refusal == refusal
    }

    fn accepted_write(&self, to: u8) -> bool {
        self.refusal == 0
            && matches!(self.event, Some(Event::Write { address, .. }) if address == to)
    }

    fn state_changed(&self, before: State, after: State) -> bool {
        self.before.pll.state == before && self.after.pll.state == after
    }

    fn selection_changed(&self) -> bool {
        self.before.selected != self.after.selected
    }

    /// A tick that selects a reference other than the one selected last.
    fn another_reference(&self) -> bool {
        self.accepted_tick()
            && self.before.history.last_reference.is_some()
            && self.before.history.last_reference != self.after.history.last_reference
    }

    /// Another is selected although the one before is still a candidate.
    fn left_a_candidate(&self) -> bool {
        let candidate = match self.before.selected {
            input @ 1..=8 => self.after.available(input),
            9 => self.after.settings.free_run_enabled(),
            _ => false,
        };
        self.selection_changed() && candidate
    }

    /// The selected one stays although another is best.
    fn stays_behind_another(&self) -> bool {
        self.automatic_tick()
            && self.after.selected != 0
            && !self.selection_changed()
            && self.after.best() != self.after.selected
    }

    /// A tick that completes a block.
    fn block_completed(&self) -> bool {
        self.accepted_tick()
            && self.after.locked()
            && self.before.history.open.samples == SAMPLES_PER_BLOCK - 1
    }

    /// Some input of which this holds, before and after.
    fn some_input(&self, holds: fn(&model::Input, &model::Input) -> bool) -> bool {
        let mut inputs = self.before.inputs.iter().zip(&self.after.inputs);
        inputs.any(|(before, after)| holds(before, after))
    }
}

type Condition = Box<dyn Fn(&Moment) -> bool>;
type SingleCondition = fn(&Moment) -> bool;

struct Item {
    name: String,
    condition: Condition,
    count: u64,
}

impl Item {
    fn of((name, condition): (String, Condition)) -> Item {
        Item {
            name,
            condition,
            count: 0,
        }
    }
}

/// The items in parts: those of #104 need not be asked where no bucket set
/// plays a part, nor those of #105 where no table does, nor those of #106 where
/// nothing is measured, nor those of #107 where there is no call, table, window
/// or end of a week. That saves time.
pub struct Coverage {
    items: Vec<Item>,
    of_buckets: Vec<Item>,
    of_tables: Vec<Item>,
    of_readings: Vec<Item>,
    of_weeks: Vec<Item>,
    pub lists: u64,
    pub events: u64,
    reads: [u64; 256],
}

impl Coverage {
    pub fn empty() -> Coverage {
        let items = |conditions: Vec<_>| conditions.into_iter().map(Item::of).collect();
        Coverage {
            items: items(conditions()),
            of_buckets: items(buckets::conditions()),
            of_tables: items(tables::conditions()),
            of_readings: items(readings::conditions()),
            of_weeks: items(busy_hours::conditions()),
            lists: 0,
            events: 0,
            reads: [0; 256],
        }
    }

    /// A table is no event: only the items of #105 and #107 are asked of it.
    pub fn note(&mut self, moment: &Moment) {
        let events = moment.table.is_none();
        for (asked, items) in [
            (events, &mut self.items),
            (events && moment.concerns_buckets(), &mut self.of_buckets),
            (moment.concerns_tables(), &mut self.of_tables),
            (moment.concerns_readings(), &mut self.of_readings),
            (moment.concerns_weeks(), &mut self.of_weeks),
        ] {
            if asked {
                let reached = items.iter_mut().filter(|item| (item.condition)(moment));
                reached.for_each(|item| item.count += 1);
            }
        }
    }

    /// Counts a list that has come to its end.
    pub fn add_list(&mut self, events: u64, reads: &[u64; 256]) {
        self.lists += 1;
        self.events += events;
        for (sum, count) in self.reads.iter_mut().zip(reads) {
            *sum += count;
        }
    }

    pub fn reads(&self) -> u64 {
        self.reads.iter().sum()
    }

    /// Each item with its count; the last is the reading of all addresses.
    pub fn counts(&self) -> Vec<(&str, u64)> {
        let items = self.items.iter().chain(&self.of_buckets);
        let items = items.chain(&self.of_tables).chain(&self.of_readings);
        let items = items.chain(&self.of_weeks);
        let mut counts: Vec<_> = items.map(|item| (item.name.as_str(), item.count)).collect();
        let least = self.reads.iter().copied().min().unwrap_or(0);
        counts.push(("reads of the least read of all 256 addresses", least));
        counts
    }

    /// The names of the items that were never reached.
    pub fn missing(&self) -> Vec<&str> {
        never_reached(self.counts())
    }
}

/// The items but those of the bucket sets, tables, measurements and windows,
/// each with its condition.
fn conditions() -> Vec<(String, Condition)> {
    let writable = (0x1c..=0x26).chain(0x40..=0x45);
    let mut list = Vec::new();
    list.extend(family(
        State::ALL,
        |state| format!("events that end in {}", state.name()),
        |m, state| m.after.pll.state == state,
    ));
    list.extend(family(
        0..=9,
        |selected| format!("events that end with selected {}", selected),
        |m, selected| m.after.selected == selected,
    ));
    list.extend(family(
        (1..=8).chain([12, 14, 16]),
        |refusal| format!("events refused with {}", refusal),
        |m, refusal| m.refusal == refusal,
    ));
    list.extend(family(
        0..=3,
        |command| format!("history command {} accepted", command),
        |m, command| m.write(0x26, command, 0),
    ));
    list.extend(family(
        1..=2,
        |command| format!("history command {} refused", command),
        |m, command| m.write(0x26, command, 8),
    ));
    list.extend(family(
        writable,
        |address| format!("accepted writes to {:#04x}", address),
        |m, address| m.accepted_write(address),
    ));
    list.extend(histories::conditions());
    list.extend(singles(SINGLE_CONDITIONS));
    list.extend(singles(histories::CONDITIONS));
    list
}

/// Items that are not one of a family.
fn singles(conditions: &'static [(&'static str, SingleCondition)]) -> Vec<(String, Condition)> {
    family(
        conditions.iter().copied(),
        |(name, _)| name.to_string(),
        |m, (_, condition)| condition(m),
    )
}

/// Like items: one for each member, with its name and condition.
fn family<T: Copy + 'static>(
    members: impl IntoIterator<Item = T>,
    name: fn(T) -> String,
    holds: fn(&Moment, T) -> bool,
) -> Vec<(String, Condition)> {
    let item =
        |member| -> (String, Condition) { (name(member), Box::new(move |m| holds(m, member))) };
    members.into_iter().map(item).collect()
}

/// The items that are not one of a family.
const SINGLE_CONDITIONS: &[(&str, SingleCondition)] = &[
    ("events that end Ready", |m| m.after.ready()),
    ("events that end with a backup held", |m| {
        m.after.backup_held()
    }),
    ("reversion wait running", |m| {
        m.accepted_tick() && m.after.wait.ticks > 0
    }),
    ("reversion done after a wait", |m| {
        m.automatic_tick()
            && m.before.wait.ticks > 0
            && m.after.selected == m.before.wait.best
            && m.left_a_candidate()
    }),
    ("reversion done after a wait of more than 2 minutes", |m| {
        m.automatic_tick()
            && m.before.wait.ticks > wait_limit(2)
            && m.after.selected == m.before.wait.best
            && m.left_a_candidate()
    }),
    ("reversion done with delay 0", |m| {
        m.automatic_tick() && m.after.settings.delay == 0 && m.left_a_candidate()
    }),
    ("reversion wait restarted for another best", |m| {
        m.accepted_tick()
            && m.before.wait.ticks > 0
            && m.after.wait.ticks == 1
            && m.after.wait.best != m.before.wait.best
    }),
    ("reversion wait zeroed without a change", |m| {
        m.automatic_tick()
            && m.before.wait.ticks > 0
            && m.after.wait.ticks == 0
            && !m.selection_changed()
    }),
    ("reversion wait zeroed by a manual tick alone", |m| {
        m.manual_tick() && m.before.wait.ticks > 0 && !m.selection_changed()
    }),
    ("non-revertive stay", |m| {
        m.stays_behind_another() && m.after.wait.ticks == 0
    }),
    ("non-revertive stay behind a revertive best", |m| {
        m.stays_behind_another()
            && m.after.wait.ticks == 0
            && m.after.settings.revertive(m.after.best())
    }),
    ("lock alarm set", |m| {
        m.some_input(|before, after| before.remainder == 0 && after.remainder == LOCK_ALARM_TICKS)
    }),
    ("lock alarm expired", |m| {
        m.some_input(|before, after| before.remainder == 1 && after.remainder == 0)
    }),
    ("activity alarm set", |m| {
        m.some_input(|before, after| !before.activity_alarm && after.activity_alarm)
    }),
    ("activity alarm cleared", |m| {
        m.some_input(|before, after| before.activity_alarm && !after.activity_alarm)
    }),
    ("activity alarm kept at level 5", |m| {
        m.some_input(|before, after| before.level == 6 && after.level == 5)
    }),
    ("frequency alarm set", |m| {
        m.some_input(|before, after| !before.frequency_alarm && after.frequency_alarm)
    }),
    ("frequency alarm cleared", |m| {
        m.some_input(|before, after| before.frequency_alarm && !after.frequency_alarm)
    }),
    ("frequency alarm set by offset -128", |m| {
        matches!(m.event, Some(Event::Measurement { offset: -128, .. }))
            && m.some_input(|before, after| !before.frequency_alarm && after.frequency_alarm)
    }),
    ("Locked after Loss of lock", |m| {
        m.state_changed(State::LossOfLock, State::Locked)
    }),
    ("Pre-locked 2 straight after Locked", |m| {
        m.state_changed(State::Locked, State::PreLocked2)
    }),
    ("Pre-locked 2 after Holdover", |m| {
        m.state_changed(State::Holdover, State::PreLocked2)
    }),
    ("Free Run after Holdover", |m| {
        m.state_changed(State::Holdover, State::FreeRun)
    }),
    ("Holdover after Free Run", |m| {
        m.state_changed(State::FreeRun, State::Holdover)
    }),
    ("64 blocks full and an old one dropped", |m| {
        m.block_completed() && m.before.history.filling().len() == BLOCKS_KEPT
    }),
    ("an old block dropped with a backup held", |m| {
        let full = m.before.history.filling().len() == BLOCKS_KEPT;
        m.block_completed() && full && m.after.backup_held()
    }),
    (
        "blocks that give a negative value, the mean not whole",
        |m| {
            let kept = &m.after.history.kept;
            let samples = i64::from(SAMPLES_PER_BLOCK) * kept.len() as i64;
            m.block_completed() && m.after.value() < 0 && kept.iter().sum::<i64>() % samples != 0
        },
    ),
    ("manual selection of a masked input", |m| {
        let selected = m.after.selected;
        m.manual_tick() && m.after.reference_selected() && !m.after.settings.unmasked(selected)
    }),
    ("manual fallback to 0", |m| {
        m.manual_tick() && m.before.selected == m.after.settings.op_mode && m.selection_changed()
    }),
    ("manual Op_Mode 0 while Ready", |m| {
        m.manual_tick() && m.after.settings.op_mode == 0 && m.after.ready()
    }),
    ("Free Run candidate chosen", |m| {
        m.selection_changed() && m.after.selected == 9
    }),
    ("Free Run candidate left for a reference", |m| {
        m.before.selected == 9 && m.after.reference_selected()
    }),
    ("Hit accepted", |m| m.accepted_hit()),
    ("Hit accepted, Ready", |m| {
        m.accepted_hit() && m.after.ready()
    }),
    ("Hit accepted, Ready, manual with Op_Mode 0", |m| {
        let settings = &m.after.settings;
        m.accepted_hit() && m.after.ready() && !settings.automatic() && settings.op_mode == 0
    }),
    ("events that end with 1 hour", |m| m.after.hours() == 1),
    ("events that end with 255 hours", |m| m.after.hours() == 255),
    ("events that end beyond 255 hours", |m| {
        m.after.holdover_ticks >= 256 * TICKS_PER_HOUR
    }),
];
