//! The faults of #107 in ticks: windows that block too much, too little or the
//! wrong ticks, another wait in them, and a place that goes another way. Those in
//! the calls are in `week_calls`.

use crate::faults::*;
use differ::fields::Fields;
use differ::windows::LAST;
use model::{wait_limit, Unit, Wait, Week, Window, FREE_RUN, TICKS_PER_WEEK};

/// Takes a tick with another week; the windows are put back after it, and the
/// place goes on from where it was.
fn tick_with_week(unit: &mut Unit, fields: Fields, alter: fn(&mut Week)) -> u8 {
    let mut week = unit.week.clone();
    if is_tick(fields) {
        alter(&mut unit.week);
    }
    let refusal = right_event(unit, fields);
    if is_tick(fields) {
        if refusal == 0 {
            week.place = (week.place + 1) % TICKS_PER_WEEK;
        }
        unit.week = week;
    }
    refusal
}

/// Takes a tick with other windows.
fn tick_with_windows(unit: &mut Unit, fields: Fields, alter: fn(&mut Window)) -> u8 {
    let mut altered = unit.week.windows.clone();
    altered.iter_mut().for_each(alter);
    let windows = std::mem::replace(&mut unit.week.windows, altered);
    let refusal = right_event(unit, fields);
    unit.week.windows = windows;
    refusal
}

/// Takes a tick as if there were no windows, if it would be blocked and this
/// holds of the unit then.
fn not_blocked_if(unit: &mut Unit, fields: Fields, so: fn(&Unit) -> bool) -> u8 {
    let busy = unit.week.busy();
    let mut blocked = unit.clone();
    let refusal = right_event(&mut blocked, fields);
    let n = wait_limit(blocked.settings.delay);
    if refusal == 0 && is_tick(fields) && busy && blocked.wait.ticks > n && so(&blocked) {
        return tick_with_week(unit, fields, |week| week.windows.clear());
    }
    *unit = blocked;
    refusal
}

/// Alters the wait after a tick in a window, beside what it was; n is that of
/// the delay.
fn wait_in_window(unit: &mut Unit, fields: Fields, alter: fn(Wait, u32, &mut Wait)) -> u8 {
    then_after_tick(unit, fields, |before, after| {
        if before.week.busy() && after.wait.ticks > 0 {
            let n = wait_limit(after.settings.delay);
            alter(before.wait, n, &mut after.wait);
        }
    })
}

/// What is selected stays in a window, if this holds before and after the tick.
fn stays_in_window(unit: &mut Unit, fields: Fields, so: fn(&Unit, &Unit) -> bool) -> u8 {
    then_after_tick(unit, fields, |before, after| {
        if before.week.busy() && so(before, after) {
            after.selected = before.selected;
            after.pll.state = before.pll.state;
        }
    })
}

/// Alters the place after a tick, which was this before it.
fn place_after_tick(unit: &mut Unit, fields: Fields, next: fn(u32, u32) -> u32) -> u8 {
    then_after_tick(unit, fields, |before, after| {
        after.week.place = next(before.week.place, after.week.place);
    })
}

pub static FAULTS: &[Fault] = &[
    in_event("windows block nothing", |unit, fields| {
        tick_with_week(unit, fields, |week| week.windows.clear())
    }),
    in_event("a window blocks a lost reference too", |unit, fields| {
        stays_in_window(unit, fields, |before, after| {
            after.settings.automatic() && before.selected != 0
        })
    }),
    in_event("a window blocks a switch to none", |unit, fields| {
        stays_in_window(unit, fields, |before, after| {
            after.settings.automatic() && before.selected != 0 && after.selected == 0
        })
    }),
    in_event("a window blocks the loss of Free Run", |unit, fields| {
        stays_in_window(unit, fields, |before, after| {
            after.settings.automatic() && before.selected == FREE_RUN
        })
    }),
    in_event("a window blocks a selection from none", |unit, fields| {
        stays_in_window(unit, fields, |before, after| {
            after.settings.automatic() && before.selected == 0
        })
    }),
    in_event("a window blocks manual control", |unit, fields| {
        stays_in_window(unit, fields, |before, after| {
            !after.settings.automatic() && before.selected != 0
        })
    }),
    in_event("the end blocks too", |unit, fields| {
        tick_with_windows(unit, fields, |window| window.end += 1)
    }),
    in_event("the last tick does not block", |unit, fields| {
        tick_with_windows(unit, fields, |window| window.end -= 1)
    }),
    in_event("the start does not block", |unit, fields| {
        tick_with_windows(unit, fields, |window| window.start += 1)
    }),
    in_event("the tick before the start blocks", |unit, fields| {
        tick_with_windows(unit, fields, |window| {
            window.start = window.start.saturating_sub(1);
        })
    }),
    in_event("only the first window blocks", |unit, fields| {
        tick_with_week(unit, fields, |week| week.windows.truncate(1))
    }),
    in_event("the eighth window does not block", |unit, fields| {
        tick_with_week(unit, fields, |week| week.windows.truncate(7))
    }),
    in_event("only the last window blocks", |unit, fields| {
        tick_with_week(unit, fields, |week| {
            let ends = week.windows.iter().map(|window| window.end);
            let last = ends.max().unwrap_or(0);
            week.windows.retain(|window| window.end == last);
        })
    }),
    in_event("blocked between the first and the last", |unit, fields| {
        tick_with_week(unit, fields, |week| {
            let (first, last) = match week.windows[..] {
                [first, .., last] => (first, last),
                _ => return,
            };
            week.windows = vec![Window::of(first.start, last.end)];
        })
    }),
    in_event("a reversion to Free Run not blocked", |unit, fields| {
        not_blocked_if(unit, fields, |unit| unit.wait.best == FREE_RUN)
    }),
    in_event("a reversion from Free Run not blocked", |unit, fields| {
        not_blocked_if(unit, fields, |unit| unit.selected == FREE_RUN)
    }),
    in_event("no block with delay 0", |unit, fields| {
        not_blocked_if(unit, fields, |unit| unit.settings.delay == 0)
    }),
    in_event("no block in the first tick of the week", |unit, fields| {
        not_blocked_if(unit, fields, |unit| unit.week.place == 1)
    }),
    in_event("no block in the last tick of the week", |unit, fields| {
        not_blocked_if(unit, fields, |unit| unit.week.place == 0)
    }),
    in_event("the wait stands still in a window", |unit, fields| {
        wait_in_window(unit, fields, |before, _, after| {
            if before.best == after.best {
                after.ticks = before.ticks;
            }
        })
    }),
    in_event("the wait does not begin in a window", |unit, fields| {
        wait_in_window(unit, fields, |before, _, after| {
            if before.ticks == 0 {
                *after = Wait::ZERO;
            }
        })
    }),
    in_event("the wait is 0 in a window", |unit, fields| {
        wait_in_window(unit, fields, |_, _, after| *after = Wait::ZERO)
    }),
    in_event("the wait begins anew in each window", |unit, fields| {
        let starts = |window: &Window| window.start == unit.week.place;
        if is_tick(fields) && unit.week.windows.iter().any(starts) {
            let mut altered = unit.clone();
            altered.wait = Wait::ZERO;
            let refusal = right_event(&mut altered, fields);
            if refusal == 0 {
                *unit = altered;
            }
            return refusal;
        }
        right_event(unit, fields)
    }),
    in_event("the wait goes past n + 1 in a window", |unit, fields| {
        wait_in_window(unit, fields, |before, _, after| {
            if before.best == after.best {
                after.ticks = before.ticks + 1;
            }
        })
    }),
    in_event("the wait stops at n in a window", |unit, fields| {
        wait_in_window(unit, fields, |before, n, after| {
            if before.best == after.best && before.ticks == n {
                after.ticks = n;
            }
        })
    }),
    in_event("the wait is cut to n + 1 in a window", |unit, fields| {
        wait_in_window(unit, fields, |_, n, after| {
            after.ticks = after.ticks.min(n + 1);
        })
    }),
    in_event("a wait above n + 1 rises in a window", |unit, fields| {
        wait_in_window(unit, fields, |before, n, after| {
            if before.best == after.best && before.ticks > n + 1 {
                after.ticks = before.ticks + 1;
            }
        })
    }),
    in_event(
        "the wait kept for another best in a window",
        |unit, fields| {
            wait_in_window(unit, fields, |before, _, after| {
                if before.ticks > 0 && before.best != after.best {
                    after.ticks = before.ticks;
                }
            })
        },
    ),
    in_event("another best not seen in a window", |unit, fields| {
        wait_in_window(unit, fields, |before, _, after| {
            if before.ticks > 0 && before.best != after.best {
                *after = before;
            }
        })
    }),
    in_event("the place advances before the selection", |unit, fields| {
        tick_with_week(unit, fields, |week| {
            week.place = (week.place + 1) % TICKS_PER_WEEK;
        })
    }),
    in_event("a refused tick advances the place", |unit, fields| {
        let refusal = right_event(unit, fields);
        if refusal == 7 {
            unit.week.place = (unit.week.place + 1) % TICKS_PER_WEEK;
        }
        refusal
    }),
    in_event("each event advances the place", |unit, fields| {
        then(unit, fields, |before, after| {
            after.week.place = (before.week.place + 1) % TICKS_PER_WEEK;
        })
    }),
    in_event(
        "a manual tick does not advance the place",
        |unit, fields| {
            then_after_tick(unit, fields, |before, after| {
                if !after.settings.automatic() {
                    after.week.place = before.week.place;
                }
            })
        },
    ),
    in_event(
        "a window's ticks do not advance the place",
        |unit, fields| {
            then_after_tick(unit, fields, |before, after| {
                if before.week.busy() {
                    after.week.place = before.week.place;
                }
            })
        },
    ),
    in_event("no place without windows", |unit, fields| {
        then_after_tick(unit, fields, |before, after| {
            if before.week.windows.is_empty() {
                after.week.place = before.week.place;
            }
        })
    }),
    in_event("the week does not end", |unit, fields| {
        place_after_tick(unit, fields, |before, _| before + 1)
    }),
    in_event("the week ends a tick late", |unit, fields| {
        place_after_tick(unit, fields, |before, after| match before {
            LAST => TICKS_PER_WEEK,
            _ => after,
        })
    }),
    in_event("the week ends a tick early", |unit, fields| {
        place_after_tick(unit, fields, |_, after| match after {
            LAST => 0,
            _ => after,
        })
    }),
    in_event("the week begins with 1", |unit, fields| {
        place_after_tick(unit, fields, |_, after| after.max(1))
    }),
    in_event("the windows end with the week", |unit, fields| {
        then_after_tick(unit, fields, |_, after| {
            if after.week.place == 0 {
                after.week.windows.clear();
            }
        })
    }),
];
