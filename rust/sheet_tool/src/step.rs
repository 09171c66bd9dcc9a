//! One step of a run: an event, which a run sheet can hold, or a call, which
//! only a host can make. Each call of the host that a text may have is here.

use crate::event::Event;
use crate::week::Window;
use controller::{Unit, TICK};
use std::fmt;
use std::rc::Rc;

/// A call's count of windows is a byte.
pub const MOST_WINDOWS: usize = u8::MAX as usize;

#[derive(Clone, Debug, PartialEq, Eq)]
pub enum Step {
    Event(Event),
    Call(Call),
}

/// A call of the host, with document 02's arguments: those of #104 and #107.
#[derive(Clone, Debug, PartialEq, Eq)]
pub enum Call {
    /// The numbers are size, set level, clear level and decay.
    SetBucket {
        set: u8,
        numbers: [u8; 4],
    },
    AssignBucket {
        input: u8,
        set: u8,
    },
    SetWeek {
        place: u32,
    },
    /// As many as fit the count, also more than the unit takes.
    SetWindows {
        windows: Rc<[Window]>,
    },
}

impl Step {
    /// Gives it to a unit: the refusal's number, 0 if accepted.
    pub fn give(&self, unit: &mut Unit) -> u8 {
        match *self {
            Step::Event(Event { kind, a, b, word }) => unit.event(kind, a, b, word),
            Step::Call(ref call) => call.give(unit),
        }
    }

    /// How many ticks it takes: 1 for an accepted tick, else 0.
    pub fn ticks(&self, refusal: u8) -> u64 {
        let tick = matches!(self, Step::Event(Event { kind: TICK, .. }));
        u64::from(tick && refusal == 0)
    }

    pub fn call(&self) -> Option<&Call> {
        match self {
            Step::Event(_) => None,
            Step::Call(call) => Some(call),
        }
    }
}

impl Call {
    /// The words of their statements.
    pub const WORDS: [&'static str; 4] = ["bucket", "assign", "week", "windows"];

    fn give(&self, unit: &mut Unit) -> u8 {
        match *self {
            Call::SetBucket { set, numbers } => {
                let [size, set_level, clear_level, decay] = numbers;
                unit.set_bucket(set, size, set_level, clear_level, decay)
            }
            Call::AssignBucket { input, set } => unit.assign_bucket(input, set),
            Call::SetWeek { place } => unit.set_week(place),
            Call::SetWindows { ref windows } => {
                let count = windows.len().min(MOST_WINDOWS) as u8;
                unit.set_windows(count, &numbers(windows))
            }
        }
    }

    /// The word of its statement.
    pub fn word(&self) -> &'static str {
        match self {
            Call::SetBucket { .. } => Call::WORDS[0],
            Call::AssignBucket { .. } => Call::WORDS[1],
            Call::SetWeek { .. } => Call::WORDS[2],
            Call::SetWindows { .. } => Call::WORDS[3],
        }
    }
}

/// Start and end of each of the first eight windows, and 0 where there is none.
fn numbers(windows: &[Window]) -> [u32; 16] {
    let mut numbers = [0; 16];
    for (pair, window) in numbers.chunks_mut(2).zip(windows) {
        pair.copy_from_slice(&[window.start, window.end]);
    }
    numbers
}

/// The statement, as a text has it; places are in ticks.
impl fmt::Display for Call {
    fn fmt(&self, f: &mut fmt::Formatter) -> fmt::Result {
        let word = self.word();
        match *self {
            Call::SetBucket { set, numbers } => {
                let [size, set_level, clear_level, decay] = numbers;
                let levels = format_args!("{} {} {}", size, set_level, clear_level);
                write!(f, "{} {} {} {}", word, set, levels, decay)
            }
            Call::AssignBucket { input, set } => write!(f, "{} {} {}", word, input, set),
            Call::SetWeek { place } => write!(f, "{} {}", word, place),
            Call::SetWindows { ref windows } if windows.is_empty() => write!(f, "{} none", word),
            Call::SetWindows { ref windows } => {
                let windows: Vec<_> = windows.iter().map(Window::to_string).collect();
                write!(f, "{} {}", word, windows.join(", "))
            }
        }
    }
}
