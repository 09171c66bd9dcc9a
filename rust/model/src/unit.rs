//! The whole unit: its state, and what each of its events does to it.

use crate::buckets::{Buckets, Changed};
use crate::building::Building;
use crate::calls::Call;
use crate::event::Event;
use crate::history::{HistoryUnder, SwitchRules};
use crate::monitors::{finer_offset, Input};
use crate::old_rules::OldRules;
use crate::pll::{Pll, State, UNLOCK_TICKS};
use crate::refusal::{number_of, Refusal};
use crate::registers::{Register, Settings};
use crate::selection::{state_after_selection, Candidates, Wait, NONE};
use crate::week::Week;

/// Samples run from −125,000,000 to 125,000,000.
pub const SAMPLE_LIMIT: i32 = 125_000_000;

/// The unit.
pub type Unit = UnitUnder<Building>;

/// The unit as it was before document 02's #102: the same but for what a switch
/// does to the history.
pub type OldUnit = UnitUnder<OldRules>;

/// A unit whose history is under these rules of a switch.
#[derive(Clone, Debug, PartialEq, Eq)]
pub struct UnitUnder<R> {
    pub inputs: [Input; 8],
    pub buckets: Buckets,
    pub pll: Pll,
    pub selected: u8,
    pub wait: Wait,
    pub week: Week,
    pub history: HistoryUnder<R>,
    /// Ticks in Holdover after the event that entered it.
    pub holdover_ticks: u64,
    pub settings: Settings,
}

impl<R: SwitchRules> UnitUnder<R> {
    /// A fresh unit with the fresh values of document 01.
    pub fn fresh() -> UnitUnder<R> {
        UnitUnder::fresh_with(Settings::fresh())
    }

    /// "Fresh: all counts 0, activity alarms clear, frequency alarms set,
    /// selected 0, Free Run."
    fn fresh_with(settings: Settings) -> UnitUnder<R> {
        UnitUnder {
            inputs: [Input::fresh(); 8],
            buckets: Buckets::fresh(),
            pll: Pll::fresh(),
            selected: NONE,
            wait: Wait::ZERO,
            week: Week::fresh(),
            history: HistoryUnder::fresh(),
            holdover_ticks: 0,
            settings,
        }
    }

    /// Document 02, #105: "A fresh unit may be made from 27 bytes". 0, or 15
    /// and the unit as it was.
    ///
    /// Reading: all but the registers is as in any fresh unit, Free Run and
    /// selected 0 among it, and nothing of the unit before is left.
    pub fn load(&mut self, table: &[u8]) -> u8 {
        let made = Settings::of_table(table).map(UnitUnder::fresh_with);
        number_of(made.map(|made| *self = made))
    }

    /// Takes one event: 0, or the number of the refusal that turned it down
    /// and left the state as it was.
    pub fn event(&mut self, event: &Event) -> u8 {
        let outcome = match *event {
            Event::Tick { mask, lock, sample } => self.tick(mask, lock, sample),
            Event::Measurement { input, offset } => self.measurement(input, finer_offset(offset)),
            Event::Hit => self.hit(),
            Event::Write { address, value } => self.write(address, value),
            Event::FinerMeasurement { input, offset } => self.measurement(input, offset),
        };
        number_of(outcome)
    }

    /// Takes one call: 0, or the number of the refusal that turned it down and
    /// left the state as it was.
    pub fn call(&mut self, call: &Call) -> u8 {
        number_of(match *call {
            Call::SetBucket { set, numbers } => {
                self.change_buckets(self.buckets.with_set(set, numbers))
            }
            Call::AssignBucket { input, set } => {
                self.change_buckets(self.buckets.with_assigned(input, set))
            }
            Call::SetWeek { place } => self.week.set_place(place),
            Call::SetWindows { count, numbers } => self.week.set_windows(count, &numbers),
        })
    }

    /// Takes the fields of one event; 12 if they are no event.
    ///
    /// Reading: 12 comes before the event's own numbers, although "Checked in
    /// number order" would put 6 or 7 first, because a sheet with such fields
    /// is turned down before any of its events runs.
    pub fn event_fields(&mut self, kind: u8, a: u8, b: u8, word: i32) -> u8 {
        match Event::from_fields(kind, a, b, word) {
            Some(event) => self.event(&event),
            None => Refusal::NoEvent.number(),
        }
    }

    /// The five steps of a tick, and the place in the week after step 4. Steps 1
    /// and 2 of one input do not touch another.
    fn tick(&mut self, mask: u8, lock: bool, sample: i32) -> Result<(), Refusal> {
        if !(-SAMPLE_LIMIT..=SAMPLE_LIMIT).contains(&sample) {
            return Err(Refusal::SampleOutOfRange);
        }
        let state_before = self.pll.state;
        for number in 1..=8 {
            let bucket = self.buckets.of(number);
            let input = self.input_mut(number);
            input.watch_activity(mask & (1 << (number - 1)) != 0, &bucket); // step 1
            input.count_soak(); // step 2
        }
        self.follow_lock(lock); // step 3
        self.select(); // step 4
        self.week.advance(); // "after its selection step"
        self.history.end_of_tick(self.locked(), sample); // step 5
        self.count_holdover(state_before);
        Ok(())
    }

    /// Step 3. "Only if a reference 1 to 8 is selected when the tick begins.":
    /// the steps before it do not change what is selected. "Unlock run 782
    /// (100 s) sets that input's lock alarm remainder to 782 and its soak to
    /// 0."
    fn follow_lock(&mut self, lock: bool) {
        if !self.reference_selected() {
            return;
        }
        self.pll.follow_lock(lock);
        if self.pll.unlock_run == UNLOCK_TICKS {
            self.input_mut(self.selected).set_lock_alarm();
        }
    }

    /// Step 4.
    fn select(&mut self) {
        let candidates = Candidates::of(&self.settings, &self.inputs);
        let choice = candidates.choose(self.selected, &mut self.wait, self.week.busy());
        let changed = choice != self.selected;
        if changed {
            self.change_selection(choice);
        }
        let (settings, ready, before) = (&self.settings, self.ready(), self.pll.state);
        self.pll.state = state_after_selection(settings, self.selected, changed, ready, before);
    }

    /// "Any change of selection zeroes the wait." "Both runs restart at 0 when
    /// the selection changes." A reference selected may change the history.
    fn change_selection(&mut self, choice: u8) {
        self.drop_selection();
        self.selected = choice;
        if self.reference_selected() {
            self.history
                .reference_selected(choice, self.settings.policy);
        }
    }

    /// Selected 0, wait and runs 0.
    fn drop_selection(&mut self) {
        self.selected = NONE;
        self.wait = Wait::ZERO;
        self.pll.restart_runs();
    }

    /// "whole hours (28,125 ticks) in Holdover after the entering event": the
    /// tick that enters Holdover is not counted, each later one is.
    fn count_holdover(&mut self, state_before: State) {
        let stayed = state_before == State::Holdover && self.pll.state == State::Holdover;
        self.holdover_ticks = if stayed { self.holdover_ticks + 1 } else { 0 };
    }

    /// A measurement of either kind, its offset in 1/64 ppm.
    fn measurement(&mut self, input: u8, offset: i16) -> Result<(), Refusal> {
        if !(1..=8).contains(&input) {
            return Err(Refusal::NoSuchInput);
        }
        let (reject, qualification) = (self.settings.reject, self.settings.qualification);
        self.input_mut(input).measure(offset, reject, qualification);
        Ok(())
    }

    /// "Hit: the selected reference's soak becomes 0, selected 0, wait and
    /// runs 0, the open block empties, state Holdover or Free Run by Ready."
    ///
    /// Reading: by Ready alone. With Op_Mode 0 in manual and a reference still
    /// selected from before, a Ready unit goes to Holdover; the rule for
    /// Op_Mode 0 makes it Free Run at the next tick.
    fn hit(&mut self) -> Result<(), Refusal> {
        if !self.reference_selected() {
            return Err(Refusal::NoReferenceToHit);
        }
        self.input_mut(self.selected).soak = 0;
        self.drop_selection();
        self.history.empty_open_block();
        self.pll.state = State::without_reference(self.ready());
        self.holdover_ticks = 0;
        Ok(())
    }

    /// A write, refused by the first of 1, 2, 3, 4 and 8 that holds.
    fn write(&mut self, address: u8, value: u8) -> Result<(), Refusal> {
        let (register, settings) = self.settings.written(address, value)?;
        if register == Register::Command {
            if !self.history.command_possible(value) {
                return Err(Refusal::CommandNotPossible);
            }
            self.history.command(value);
        }
        self.settings = settings;
        Ok(())
    }

    /// Document 02, #104: "Setting or assigning a set, even as it was, puts
    /// each input it concerns at level S, alarm set, decay count 0."
    fn change_buckets(&mut self, changed: Result<Changed, Refusal>) -> Result<(), Refusal> {
        let (buckets, concerned) = changed?;
        for input in concerned {
            self.input_mut(input).start_bucket(&buckets.of(input));
        }
        self.buckets = buckets;
        Ok(())
    }

    pub fn ready(&self) -> bool {
        self.history.ready()
    }

    pub fn backup_held(&self) -> bool {
        self.history.backup.is_some()
    }

    pub fn locked(&self) -> bool {
        self.pll.state == State::Locked
    }

    pub fn reference_selected(&self) -> bool {
        (1..=8).contains(&self.selected)
    }

    pub fn input(&self, input: u8) -> &Input {
        &self.inputs[usize::from(input) - 1]
    }

    fn input_mut(&mut self, input: u8) -> &mut Input {
        &mut self.inputs[usize::from(input) - 1]
    }
}
