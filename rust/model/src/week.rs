//! The week of the busy hours: the place in it, the windows in which no
//! reversion switches, and what the calls may set. Sentences in quotation marks
//! are document 02's, #107.

use crate::refusal::Refusal;

/// "A week is 4,725,000 ticks"
pub const TICKS_PER_WEEK: u32 = 4_725_000;
/// "Up to eight windows"
pub const MOST_WINDOWS: usize = 8;
/// A start and an end for each of them.
pub const WINDOW_NUMBERS: usize = 2 * MOST_WINDOWS;

/// "each from its first tick up to but not including its end"
#[derive(Clone, Copy, Debug, PartialEq, Eq)]
pub struct Window {
    pub start: u32,
    pub end: u32,
}

impl Window {
    pub const fn of(start: u32, end: u32) -> Window {
        Window { start, end }
    }

    pub fn includes(&self, place: u32) -> bool {
        self.start <= place && place < self.end
    }

    /// Not "start not before end", and not "end past the week".
    pub fn within_bounds(&self) -> bool {
        self.start < self.end && self.end <= TICKS_PER_WEEK
    }
}

#[derive(Clone, Debug, PartialEq, Eq)]
pub struct Week {
    /// The place of the next tick.
    pub place: u32,
    pub windows: Vec<Window>,
}

impl Week {
    /// "fresh 0, with no windows"
    pub fn fresh() -> Week {
        Week {
            place: 0,
            windows: Vec::new(),
        }
    }

    /// Whether the place is in a window.
    pub fn busy(&self) -> bool {
        let mut windows = self.windows.iter();
        windows.any(|window| window.includes(self.place))
    }

    /// "each tick advances it after its selection step, returning to 0 at the
    /// end"
    pub(crate) fn advance(&mut self) {
        let last = TICKS_PER_WEEK - 1;
        self.place = if self.place < last { self.place + 1 } else { 0 };
    }

    /// "16: place 4,725,000 or more"
    pub(crate) fn set_place(&mut self, place: u32) -> Result<(), Refusal> {
        if place >= TICKS_PER_WEEK {
            return Err(Refusal::NoSuchWeek);
        }
        self.place = place;
        Ok(())
    }

    /// "16: [...] over eight windows", or windows that cannot be; "one check
    /// before storing".
    pub(crate) fn set_windows(
        &mut self,
        count: u8,
        numbers: &[u32; WINDOW_NUMBERS],
    ) -> Result<(), Refusal> {
        let count = usize::from(count);
        let pairs = numbers.chunks_exact(2).take(count);
        let windows: Vec<_> = pairs.map(|pair| Window::of(pair[0], pair[1])).collect();
        if count > MOST_WINDOWS || !windows_can_be(&windows) {
            return Err(Refusal::NoSuchWeek);
        }
        self.windows = windows;
        Ok(())
    }
}

/// Whether these are not windows with "start not before end, end past the week,
/// not ascending with a free tick between, or first at 0 with last ending the
/// week".
///
/// Reading: windows of which one ends where the next starts have no free tick
/// between. No windows at all can be set too.
pub fn windows_can_be(windows: &[Window]) -> bool {
    let mut neighbours = windows.iter().zip(windows.iter().skip(1));
    let first_at_0 = windows.first().map_or(false, |first| first.start == 0);
    let last_ends = windows
        .last()
        .map_or(false, |last| last.end == TICKS_PER_WEEK);
    windows.iter().all(Window::within_bounds)
        && neighbours.all(|(one, next)| one.end < next.start)
        && !(first_at_0 && last_ends)
}
