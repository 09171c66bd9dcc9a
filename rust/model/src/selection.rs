//! The choice of the reference and the state that follows from it: tick
//! step 4. "Selected is 0 (none), 1 to 8, or 9 (Free Run as a candidate)."

use crate::monitors::Input;
use crate::pll::State;
use crate::registers::Settings;

/// Selected when nothing is.
pub const NONE: u8 = 0;
/// Free Run as a candidate.
pub const FREE_RUN: u8 = 9;

/// The reversion wait: its count in ticks, and the best it counts for.
#[derive(Clone, Copy, Debug, PartialEq, Eq)]
pub struct Wait {
    pub ticks: u32,
    pub best: u8,
}

impl Wait {
    pub const ZERO: Wait = Wait {
        ticks: 0,
        best: NONE,
    };

    /// The choice while the selected one is a candidate. "If it is best, it
    /// stays and the wait is 0. If it is not best and non-revertive, it stays
    /// and the wait is 0. If revertive, the wait rises [...]; the switch comes
    /// when wait − 1 is n or more". Revertive is bit 3 of the selected one, not
    /// of the best.
    ///
    /// Document 02, #107: windows "block the switch of a reversion; meanwhile
    /// the wait rises only if it is below n + 1". Busy is a tick in a window.
    ///
    /// Reading: below n + 1 before the tick. A wait that is 0 or counted for
    /// another best is below it, and is 1 in a window too.
    pub(crate) fn choose(&mut self, selected: u8, best: u8, settings: &Settings, busy: bool) -> u8 {
        if selected == best || !settings.revertive(selected) {
            *self = Wait::ZERO;
            return selected;
        }
        let n = wait_limit(settings.delay);
        // "the wait rises by 1, or is 1 if it was 0 or counted for another best"
        let waited = if self.best == best { self.ticks } else { 0 };
        let rises = !busy || waited < n + 1;
        let ticks = waited + u32::from(rises);
        *self = Wait { ticks, best };
        // Wait − 1 is n or more when the wait is above n.
        if self.ticks > n && !busy {
            best
        } else {
            selected
        }
    }
}

/// "n being the least with 4n ≥ 1,875 times the delay in minutes"
pub fn wait_limit(delay: u8) -> u32 {
    (1_875 * u32::from(delay) + 3) / 4
}

/// Whom a tick can choose from: the inputs as they are judged, under the
/// settings.
#[derive(Clone, Copy)]
pub(crate) struct Candidates<'a> {
    settings: &'a Settings,
    inputs: &'a [Input; 8],
}

impl<'a> Candidates<'a> {
    pub fn of(settings: &'a Settings, inputs: &'a [Input; 8]) -> Candidates<'a> {
        Candidates { settings, inputs }
    }

    /// The choice of a tick, with what is selected so far and its wait; busy is
    /// a tick in a window.
    pub fn choose(self, selected: u8, wait: &mut Wait, busy: bool) -> u8 {
        if self.settings.automatic() {
            self.automatic(selected, wait, busy)
        } else {
            // "Any manual tick zeroes the wait."
            *wait = Wait::ZERO;
            self.manual()
        }
    }

    /// "If the selected one is no candidate, the best is taken, or 0." Document
    /// 02, #107: "A switch off a lost reference is never blocked."
    fn automatic(self, selected: u8, wait: &mut Wait, busy: bool) -> u8 {
        if self.includes(selected) {
            wait.choose(selected, self.best(), self.settings, busy)
        } else {
            self.best()
        }
    }

    /// "Op_Mode s in 1 to 8 selects s if qualified, masked or not, else 0; 0
    /// and 9 select 0."
    fn manual(self) -> u8 {
        match self.settings.op_mode {
            s @ 1..=8 if self.qualified(s) => s,
            _ => NONE,
        }
    }

    /// "candidates are the available references by priority (0 best), then
    /// number; Free Run, if enabled, stands after all references of equal
    /// priority." As number 9 it does. 0 if there is no candidate.
    pub fn best(self) -> u8 {
        (1..=FREE_RUN)
            .filter(|&candidate| self.includes(candidate))
            .min_by_key(|&candidate| (self.settings.priority(candidate), candidate))
            .unwrap_or(NONE)
    }

    fn includes(self, selected: u8) -> bool {
        match selected {
            1..=8 => self.available(selected),
            FREE_RUN => self.settings.free_run_enabled(),
            _ => false,
        }
    }

    /// "available means qualified and unmasked"
    pub fn available(self, input: u8) -> bool {
        self.qualified(input) && self.settings.unmasked(input)
    }

    fn qualified(self, input: u8) -> bool {
        self.inputs[usize::from(input) - 1].qualified()
    }
}

/// "Op_Mode 0 in manual, or selected 9, is Free Run. Else selected 0 is
/// Holdover if Ready, otherwise Free Run. A newly selected reference starts
/// Pre-locked if the state was Free Run, else Pre-locked 2."
pub(crate) fn state_after_selection(
    settings: &Settings,
    selected: u8,
    changed: bool,
    ready: bool,
    before: State,
) -> State {
    let manual_free_run = !settings.automatic() && settings.op_mode == 0;
    if manual_free_run || selected == FREE_RUN {
        State::FreeRun
    } else if selected == NONE {
        State::without_reference(ready)
    } else if !changed {
        before
    } else if before == State::FreeRun {
        State::PreLocked
    } else {
        State::PreLocked2
    }
}
