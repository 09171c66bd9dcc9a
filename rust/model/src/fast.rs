//! The same controller written for speed, to be measured beside the real one:
//! the inputs in arrays that a tick goes through in one loop, the block sums in
//! rings, sheets run in place with nothing allocated. The rules are those of
//! the plain model, which tells them; its answers must be the same.

mod buckets;
mod pages;
mod reading;
mod reversion;

pub use buckets::Sets;
pub use pages::print;

use crate::blocks::{BLOCKS_KEPT, SAMPLES_PER_BLOCK};
use crate::buckets::{Buckets, Changed};
use crate::calls::Call;
use crate::event::Event;
use crate::history::BLOCKS_FOR_READY;
use crate::monitors::{finer_limit, finer_offset, LOCK_ALARM_TICKS, SOAK_TICKS};
use crate::pll::{Pll, State, UNLOCK_TICKS};
use crate::refusal::{number_of, Refusal};
use crate::registers::{Register, Settings};
use crate::selection::{Wait, FREE_RUN, NONE};
use crate::sheet::{self, Record, BYTES_PER_EVENT, BYTES_PER_RECORD, BYTES_PER_SETTING};
use crate::unit::SAMPLE_LIMIT;
use crate::week::Week;
use std::ops::RangeInclusive;

const SAMPLES: RangeInclusive<i32> = -SAMPLE_LIMIT..=SAMPLE_LIMIT;
const REFERENCES: RangeInclusive<u8> = 1..=8;

/// One number for each input, an alarm 1 if set: of one width, and without
/// branches, so that the machine can take all eight at once. Signed, since it
/// compares such numbers in one step; none of an input's is below 0.
pub type Lanes = [i16; 8];

const SOAKED: i16 = SOAK_TICKS as i16;

/// What the monitors keep of each input, and the mask of the qualified ones.
#[derive(Clone, Copy, Debug, PartialEq, Eq)]
pub struct Monitors {
    pub level: Lanes,
    pub decay: Lanes,
    pub activity_alarm: Lanes,
    pub frequency_alarm: Lanes,
    pub remainder: Lanes,
    pub soak: Lanes,
    pub qualified: u8,
}

impl Monitors {
    fn fresh() -> Monitors {
        Monitors {
            level: [0; 8],
            decay: [0; 8],
            activity_alarm: [0; 8],
            frequency_alarm: [1; 8],
            remainder: [0; 8],
            soak: [0; 8],
            qualified: 0,
        }
    }

    /// Steps 1 and 2 of all inputs.
    fn tick(&mut self, mask: u8, sets: &Sets) {
        let mut qualified = 0;
        for (i, irregular) in LANES[usize::from(mask)].into_iter().enumerate() {
            // The decay's ticks are a power of two.
            let count = (self.decay[i] + 1) & sets.decay_mask[i];
            let decays = i16::from(count == 0);
            let higher = (self.level[i] + 1).min(sets.size[i]);
            let lower = (self.level[i] - decays).max(0);
            let level = (higher & irregular) | (lower & !irregular);
            let kept = i16::from(level > sets.clear_level[i]) & self.activity_alarm[i];
            let alarm = i16::from(level >= sets.set_level[i]) | kept;
            let remainder = (self.remainder[i] - 1).max(0);
            let good = alarm | self.frequency_alarm[i] | remainder == 0;
            let soak = i16::from(good) * (self.soak[i] + 1).min(SOAKED);
            qualified |= i16::from(soak == SOAKED) << i;
            self.level[i] = level;
            self.decay[i] = count & !irregular;
            self.activity_alarm[i] = alarm;
            self.remainder[i] = remainder;
            self.soak[i] = soak;
        }
        self.qualified = qualified as u8;
    }

    fn start_bucket(&mut self, input: u8, size: u8) {
        let i = usize::from(input) - 1;
        self.level[i] = i16::from(size);
        self.activity_alarm[i] = 1;
        self.decay[i] = 0;
    }

    fn empty_soak(&mut self, input: u8) {
        let i = usize::from(input) - 1;
        self.soak[i] = 0;
        self.qualified &= !(1 << i);
    }

    fn set_lock_alarm(&mut self, input: u8) {
        self.remainder[usize::from(input) - 1] = LOCK_ALARM_TICKS as i16;
        self.empty_soak(input);
    }

    /// The offset is in 1/64 ppm.
    fn measure(&mut self, input: u8, offset: i16, settings: &Settings) {
        let magnitude = offset.unsigned_abs();
        let alarm = &mut self.frequency_alarm[usize::from(input) - 1];
        if magnitude > finer_limit(settings.reject) {
            *alarm = 1;
        } else if magnitude <= finer_limit(settings.qualification) {
            *alarm = 0;
        }
    }
}

/// For each mask the lanes of its bits: all ones where the bit is set.
static LANES: [Lanes; 256] = {
    let mut table = [[0; 8]; 256];
    let mut place = 0;
    while place < 256 * 8 {
        let (mask, bit) = (place / 8, place % 8);
        if mask & (1 << bit) != 0 {
            table[mask][bit] = -1;
        }
        place += 1;
    }
    table
};

/// Block sums in a ring.
#[derive(Clone, Copy, Debug, PartialEq, Eq)]
pub struct Blocks {
    sums: [i64; BLOCKS_KEPT],
    /// The place of the next sum, which is that of the oldest if all are full.
    next: usize,
    count: usize,
}

impl Blocks {
    const EMPTY: Blocks = Blocks {
        sums: [0; BLOCKS_KEPT],
        next: 0,
        count: 0,
    };

    fn push(&mut self, sum: i64) {
        self.sums[self.next] = sum;
        self.next = (self.next + 1) % BLOCKS_KEPT;
        self.count = (self.count + 1).min(BLOCKS_KEPT);
    }

    /// The sums, the oldest first: those at the ring's end, then those in front
    /// of the next place.
    pub fn iter(&self) -> impl Iterator<Item = i64> + '_ {
        let at_end = self.count.saturating_sub(self.next);
        let older = &self.sums[BLOCKS_KEPT - at_end..];
        let newer = &self.sums[self.next - (self.count - at_end)..self.next];
        older.iter().chain(newer).copied()
    }
}

/// The holdover history. Block sums are touched only where a block completes
/// and where commands copy them.
#[derive(Clone, Copy, Debug, PartialEq, Eq)]
pub struct History {
    pub open_sum: i64,
    pub open_samples: u32,
    /// Whether a history builds.
    builds: bool,
    /// The blocks in use.
    pub kept: Blocks,
    /// The building history's, while one builds.
    building: Blocks,
    pub backup: Option<Blocks>,
    pub last_reference: Option<u8>,
}

impl History {
    fn fresh() -> History {
        History {
            open_sum: 0,
            open_samples: 0,
            builds: false,
            kept: Blocks::EMPTY,
            building: Blocks::EMPTY,
            backup: None,
            last_reference: None,
        }
    }

    /// The building history's blocks; none while nothing builds.
    pub fn building(&self) -> Option<&Blocks> {
        self.builds.then_some(&self.building)
    }

    fn ready(&self) -> bool {
        self.kept.count >= BLOCKS_FOR_READY
    }

    fn empty_open_block(&mut self) {
        self.open_sum = 0;
        self.open_samples = 0;
    }

    fn empty_building_and_open_block(&mut self) {
        self.building.count = 0;
        self.empty_open_block();
    }

    /// Step 5.
    fn end_of_tick(&mut self, locked: bool, sample: i32) {
        if locked {
            self.open_sum += i64::from(sample);
            self.open_samples += 1;
            if self.open_samples < SAMPLES_PER_BLOCK {
                return;
            }
            self.block_completed();
        }
        self.empty_open_block();
    }

    /// One tick in 128.
    #[cold]
    fn block_completed(&mut self) {
        if !self.builds {
            return self.kept.push(self.open_sum);
        }
        self.building.push(self.open_sum);
        if self.building.count >= BLOCKS_FOR_READY {
            self.kept = self.building;
            self.builds = false;
        }
    }

    fn reference_selected(&mut self, reference: u8, policy: u8) {
        if policy == 0 && self.last_reference != Some(reference) {
            self.builds = true;
            self.empty_building_and_open_block();
        }
        self.last_reference = Some(reference);
    }

    fn command(&mut self, command: u8) -> Result<(), Refusal> {
        match (command, self.backup) {
            (1, _) if self.ready() => self.backup = Some(self.kept),
            (2, Some(backup)) => {
                self.kept = backup;
                self.empty_building_and_open_block();
            }
            (1 | 2, _) => return Err(Refusal::CommandNotPossible),
            (3, _) => {
                self.kept.count = 0;
                self.empty_building_and_open_block();
            }
            _ => {}
        }
        Ok(())
    }
}

/// The whole state.
#[derive(Clone, Debug, PartialEq, Eq)]
pub struct Unit {
    pub monitors: Monitors,
    pub sets: Sets,
    pub pll: Pll,
    pub selected: u8,
    pub wait: Wait,
    pub week: Week,
    pub history: History,
    pub holdover_ticks: u64,
    pub settings: Settings,
    /// For each priority the candidates that have it: bit 0 is input 1, bit 8
    /// Free Run. It follows from the settings.
    by_priority: [u16; 8],
}

impl Unit {
    pub fn fresh() -> Unit {
        Unit::fresh_with(Settings::fresh())
    }

    fn fresh_with(settings: Settings) -> Unit {
        Unit {
            monitors: Monitors::fresh(),
            sets: Sets::of(Buckets::fresh()),
            pll: Pll::fresh(),
            selected: NONE,
            wait: Wait::ZERO,
            week: Week::fresh(),
            history: History::fresh(),
            holdover_ticks: 0,
            settings,
            by_priority: by_priority(&settings),
        }
    }

    /// Makes the unit anew from a table: 0, or 15 and the unit as it was.
    pub fn load(&mut self, table: &[u8]) -> u8 {
        let made = Settings::of_table(table).map(Unit::fresh_with);
        number_of(made.map(|made| *self = made))
    }

    /// Takes one event: 0, or the number of its refusal.
    pub fn event(&mut self, event: &Event) -> u8 {
        number_of(self.take(event))
    }

    /// Takes the fields of one event; 12 if they are no event.
    pub fn event_fields(&mut self, kind: u8, a: u8, b: u8, word: i32) -> u8 {
        match Event::from_fields(kind, a, b, word) {
            Some(event) => self.event(&event),
            None => Refusal::NoEvent.number(),
        }
    }

    /// Takes one call: 0, or the number of its refusal.
    pub fn call(&mut self, call: &Call) -> u8 {
        let buckets = self.sets.buckets;
        number_of(match *call {
            Call::SetBucket { set, numbers } => self.change_buckets(buckets.with_set(set, numbers)),
            Call::AssignBucket { input, set } => {
                self.change_buckets(buckets.with_assigned(input, set))
            }
            Call::SetWeek { place } => self.week.set_place(place),
            Call::SetWindows { count, numbers } => self.week.set_windows(count, &numbers),
        })
    }

    fn change_buckets(&mut self, changed: Result<Changed, Refusal>) -> Result<(), Refusal> {
        let (buckets, concerned) = changed?;
        for input in concerned {
            self.monitors.start_bucket(input, buckets.of(input).size);
        }
        self.sets = Sets::of(buckets);
        Ok(())
    }

    fn take(&mut self, event: &Event) -> Result<(), Refusal> {
        match *event {
            Event::Tick { sample, .. } if !SAMPLES.contains(&sample) => {
                return Err(Refusal::SampleOutOfRange)
            }
            Event::Tick { mask, lock, sample } => self.tick(mask, lock, sample),
            Event::Measurement { input, .. } | Event::FinerMeasurement { input, .. }
                if !REFERENCES.contains(&input) =>
            {
                return Err(Refusal::NoSuchInput)
            }
            Event::Measurement { input, offset } => {
                let offset = finer_offset(offset);
                self.monitors.measure(input, offset, &self.settings)
            }
            Event::FinerMeasurement { input, offset } => {
                self.monitors.measure(input, offset, &self.settings)
            }
            Event::Hit if !self.reference_selected() => return Err(Refusal::NoReferenceToHit),
            Event::Hit => self.hit(),
            Event::Write { address, value } => self.write(address, value)?,
        }
        Ok(())
    }

    /// Takes the event of a sheet that was checked, and writes its record.
    fn event_of_sheet(&mut self, event: Option<Event>, place: &mut [u8]) {
        if let Some(event) = event {
            let refusal = self.event(&event);
            place.copy_from_slice(&self.record(refusal));
        }
    }

    /// The record after an event with this refusal or 0.
    pub fn record(&self, refusal: u8) -> Record {
        let state = self.pll.state;
        let flags = u8::from(matches!(state, State::Holdover | State::FreeRun))
            | u8::from(state != State::Locked) << 1
            | u8::from(self.history.ready()) << 2
            | u8::from(self.history.backup.is_some()) << 3;
        let state_and_selected = (state as u8) << 4 | self.selected;
        [refusal, state_and_selected, self.monitors.qualified, flags]
    }

    fn tick(&mut self, mask: u8, lock: bool, sample: i32) {
        let state_before = self.pll.state;
        self.monitors.tick(mask, &self.sets);
        if self.reference_selected() {
            self.pll.follow_lock(lock);
            if self.pll.unlock_run == UNLOCK_TICKS {
                self.monitors.set_lock_alarm(self.selected);
            }
        }
        self.select();
        self.week.advance();
        let state = self.pll.state;
        self.history.end_of_tick(state == State::Locked, sample);
        let stayed = state_before == State::Holdover && state == State::Holdover;
        self.holdover_ticks = if stayed { self.holdover_ticks + 1 } else { 0 };
    }

    /// Step 4.
    fn select(&mut self) {
        let automatic = self.settings.automatic();
        let manual_free_run = !automatic && self.settings.op_mode == 0;
        let choice = if automatic {
            self.automatic_choice()
        } else {
            self.manual_choice()
        };
        let changed = self.selected != choice;
        if changed {
            self.drop_selection();
            self.selected = choice;
            if self.reference_selected() {
                self.history
                    .reference_selected(choice, self.settings.policy);
            }
        }
        self.pll.state = match (choice, self.pll.state) {
            (FREE_RUN, _) => State::FreeRun,
            _ if manual_free_run => State::FreeRun,
            (NONE, _) => self.state_without_reference(),
            (_, state) if !changed => state,
            (_, State::FreeRun) => State::PreLocked,
            _ => State::PreLocked2,
        };
    }

    fn automatic_choice(&mut self) -> u8 {
        let free_run = u16::from(self.settings.free_run_enabled()) << 8;
        let candidates = u16::from(self.available()) | free_run;
        let best = self.best_of(candidates);
        // Bit 0 for input 1 to bit 8 for Free Run, none for 0.
        let selected_bit = (1 << self.selected) >> 1;
        if candidates & selected_bit == 0 {
            return best;
        }
        self.wait
            .stay_or_revert(self.selected, best, &self.settings, &self.week)
    }

    fn available(&self) -> u8 {
        self.monitors.qualified & self.settings.mask
    }

    fn best_of(&self, candidates: u16) -> u8 {
        let by_priority = self.by_priority.iter();
        let best = by_priority
            .map(|with_priority| with_priority & candidates)
            .find(|&best| best != 0);
        best.map_or(NONE, |best| best.trailing_zeros() as u8 + 1)
    }

    fn manual_choice(&mut self) -> u8 {
        self.wait = Wait::ZERO;
        match self.settings.op_mode {
            s @ 1..=8 if self.monitors.qualified & (1 << (s - 1)) != 0 => s,
            _ => NONE,
        }
    }

    fn drop_selection(&mut self) {
        self.selected = NONE;
        self.wait = Wait::ZERO;
        self.pll.restart_runs();
    }

    fn state_without_reference(&self) -> State {
        State::without_reference(self.history.ready())
    }

    fn reference_selected(&self) -> bool {
        REFERENCES.contains(&self.selected)
    }

    fn hit(&mut self) {
        self.monitors.empty_soak(self.selected);
        self.history.empty_open_block();
        self.drop_selection();
        self.pll.state = self.state_without_reference();
        self.holdover_ticks = 0;
    }

    fn write(&mut self, address: u8, value: u8) -> Result<(), Refusal> {
        let (register, settings) = self.settings.written(address, value)?;
        match register {
            Register::Command => self.history.command(value)?,
            Register::Input(_) | Register::FreeRun => self.by_priority = by_priority(&settings),
            _ => {}
        }
        self.settings = settings;
        Ok(())
    }
}

fn by_priority(settings: &Settings) -> [u16; 8] {
    let mut masks = [0; 8];
    for candidate in 1..=FREE_RUN {
        masks[usize::from(settings.priority(candidate))] |= 1 << (candidate - 1);
    }
    masks
}

/// As the plain model's.
pub fn check(sheet: &[u8], output_len: usize) -> u8 {
    match sections_with_room(sheet, output_len) {
        Ok(_) => 0,
        Err(refusal) => refusal.number(),
    }
}

/// As the plain model's.
pub fn run(sheet: &[u8], output: &mut [u8]) -> usize {
    match sections_with_room(sheet, output.len()) {
        Ok(sections) => run_sections(sections, output),
        Err(_) => 0,
    }
}

/// The bytes of a sheet's settings and of its events.
type Sections<'a> = (&'a [u8], &'a [u8]);

/// Runs a sheet that was checked: how many bytes it wrote.
fn run_sections((settings, events): Sections, output: &mut [u8]) -> usize {
    let settings = settings.chunks_exact(BYTES_PER_SETTING);
    let events = events.chunks_exact(BYTES_PER_EVENT);
    let records = settings.len() + events.len();
    let mut unit = Unit::fresh();
    let mut places = output.chunks_exact_mut(BYTES_PER_RECORD);
    for (bytes, place) in settings.zip(&mut places) {
        unit.event_of_sheet(sheet::setting(bytes), place);
    }
    for (bytes, place) in events.zip(places) {
        unit.event_of_sheet(sheet::event(bytes), place);
    }
    BYTES_PER_RECORD * records
}

fn sections_with_room(sheet: &[u8], output_len: usize) -> Result<Sections<'_>, Refusal> {
    let sections = sheet::sections(sheet)?;
    let (_, events) = sections;
    let mut events = events.chunks_exact(BYTES_PER_EVENT);
    if !events.all(|bytes| sheet::event(bytes).is_some()) {
        return Err(Refusal::NoEvent);
    }
    if output_len < BYTES_PER_RECORD * record_count(sections) {
        return Err(Refusal::OutputTooShort);
    }
    Ok(sections)
}

/// How many records a sheet gives.
fn record_count((settings, events): Sections) -> usize {
    settings.len() / BYTES_PER_SETTING + events.len() / BYTES_PER_EVENT
}
