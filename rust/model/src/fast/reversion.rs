//! The reversion for speed: the windows are looked at only where a switch would
//! come.

use crate::registers::Settings;
use crate::selection::{wait_limit, Wait};
use crate::week::Week;

impl Wait {
    /// The choice while the selected one is a candidate.
    #[inline]
    pub(super) fn stay_or_revert(
        &mut self,
        selected: u8,
        best: u8,
        settings: &Settings,
        week: &Week,
    ) -> u8 {
        if selected == best || !settings.revertive(selected) {
            *self = Wait::ZERO;
            return selected;
        }
        let n = wait_limit(settings.delay);
        let waited = if self.best == best { self.ticks } else { 0 };
        let ticks = waited + 1;
        *self = Wait { ticks, best };
        if waited < n {
            return selected;
        }
        if week.busy() {
            self.ticks = waited.max(n + 1);
            return selected;
        }
        best
    }
}
