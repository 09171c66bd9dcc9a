//! The week of the busy hours, document 02's #107: times as ticks, windows, and
//! whether a unit's place is in one.

use crate::number::decimal;
use controller::Unit;
use std::fmt;

/// The days in the order of the week: whoever writes one says that Monday 00:00
/// is place 0.
pub const DAYS: [&str; 7] = ["mon", "tue", "wed", "thu", "fri", "sat", "sun"];

pub const HOURS_PER_DAY: u32 = 24;
pub const HOURS_PER_WEEK: u32 = 168;
pub const MINUTES_PER_HOUR: u32 = 60;

/// A window, from its start up to but not including its end.
#[derive(Clone, Copy, Debug, PartialEq, Eq)]
pub struct Window {
    pub start: u32,
    pub end: u32,
}

/// As a text has it, in ticks.
impl fmt::Display for Window {
    fn fmt(&self, f: &mut fmt::Formatter) -> fmt::Result {
        write!(f, "{} to {}", self.start, self.end)
    }
}

/// The least tick not before so many minutes of a week: four minutes are 1,875
/// ticks.
pub fn ticks(minutes: u32) -> u32 {
    (1_875 * minutes + 3) / 4
}

/// The minutes of a time, hours and two digits as in 55:30; None if the word is
/// none. Hours that are too many for every field stop at a bound.
pub fn minutes(time: &str) -> Option<i64> {
    let (hours, minutes) = time.split_once(':')?;
    let per_hour = i64::from(MINUTES_PER_HOUR);
    let part = decimal(minutes).filter(|&part| minutes.len() == 2 && part < per_hour)?;
    let whole = decimal(hours)?.saturating_mul(per_hour);
    Some(whole.saturating_add(part))
}

/// Whether the unit's place is in a window. A pair whose start is not before its
/// end is none.
pub fn is_busy(unit: &Unit) -> bool {
    let in_window = |pair: &[u32]| (pair[0]..pair[1]).contains(&unit.core.place);
    unit.windows.chunks(2).any(in_window)
}
