//! The items of #107: the two calls at and beyond each bound, what windows block
//! and what they do not, the wait in them, and the week's end.

use super::{family, singles, Condition, Moment, SingleCondition};
use crate::report::grouped;
use crate::windows::{first_windows, Numbers, LAST};
use model::{wait_limit, windows_can_be, Call, Window, FREE_RUN, TICKS_PER_WEEK};

impl Moment<'_> {
    /// A call, a table, or an event with windows or at the week's end.
    pub fn concerns_weeks(&self) -> bool {
        let week = &self.before.week;
        self.call.is_some()
            || self.table.is_some()
            || !week.windows.is_empty()
            || week.place == LAST
    }

    /// The place of a call with this answer.
    fn placed(&self, refusal: u8) -> Option<u32> {
        match self.call {
            Some(Call::SetWeek { place }) if self.refusal == refusal => Some(place),
            _ => None,
        }
    }

    /// The count and numbers of a call for windows with this answer.
    fn windows_call(&self, refusal: u8) -> Option<(u8, Numbers)> {
        match self.call {
            Some(Call::SetWindows { count, numbers }) if self.refusal == refusal => {
                Some((count, numbers))
            }
            _ => None,
        }
    }

    /// Windows that are set, of which this holds.
    fn windows_set(&self, holds: fn(&[Window]) -> bool) -> bool {
        self.windows_call(0).is_some() && holds(&self.after.week.windows)
    }

    /// Either call, accepted.
    fn week_set(&self) -> bool {
        self.placed(0).is_some() || self.windows_call(0).is_some()
    }

    fn refused_with_16(&self) -> bool {
        self.placed(16).is_some() || self.windows_call(16).is_some()
    }

    /// A tick in a window.
    fn busy_tick(&self) -> bool {
        self.accepted_tick() && self.before.week.busy()
    }

    /// The window that the tick, or what else is sent, falls in.
    fn window(&self) -> Option<Window> {
        let week = &self.before.week;
        let mut windows = week.windows.iter().copied();
        windows.find(|window| window.includes(week.place))
    }

    /// n of the delay.
    fn n(&self) -> u32 {
        wait_limit(self.after.settings.delay)
    }

    /// A tick that would switch, were it not in a window.
    fn blocked(&self) -> bool {
        self.busy_tick() && self.after.settings.automatic() && self.after.wait.ticks > self.n()
    }

    /// As `blocked`, in a window and with a place of which this holds.
    fn blocked_at(&self, holds: fn(Window, u32) -> bool) -> bool {
        let place = self.before.week.place;
        self.blocked() && self.window().map_or(false, |window| holds(window, place))
    }

    /// The unit stands in a window, and a switch was blocked there or would be.
    fn was_blocked(&self) -> bool {
        let before = self.before;
        before.week.busy() && before.wait.ticks > wait_limit(before.settings.delay)
    }

    /// The first tick after a window.
    fn first_free_tick(&self) -> bool {
        let week = &self.before.week;
        let mut windows = week.windows.iter();
        let ended = |window: &Window| window.end % TICKS_PER_WEEK == week.place;
        self.accepted_tick() && !week.busy() && windows.any(ended)
    }

    /// A reversion in the first tick after a window that blocked it.
    fn first_free_switch(&self) -> bool {
        self.automatic_tick()
            && self.first_free_tick()
            && self.left_a_candidate()
            && self.before.wait.ticks > self.n()
    }

    /// A tick in a window that leaves what is no candidate any more.
    fn lost_in_window(&self) -> bool {
        self.busy_tick()
            && self.automatic_tick()
            && self.before.selected != 0
            && self.selection_changed()
            && !self.left_a_candidate()
    }

    /// The tick with which the week ends.
    fn week_ends(&self) -> bool {
        self.accepted_tick() && self.before.week.place == LAST
    }

    /// Another delay, written in a window during a wait.
    fn delay_in_window(&self) -> bool {
        self.accepted_write(0x43) && self.before.week.busy() && self.before.wait.ticks > 0
    }

    fn table_loaded(&self) -> bool {
        self.refusal == 0 && self.table.is_some()
    }
}

/// Whether two neighbours are so.
fn neighbours(windows: &[Window], so: fn(Window, Window) -> bool) -> bool {
    windows.windows(2).any(|two| so(two[0], two[1]))
}

fn starts_the_week(windows: &[Window]) -> bool {
    windows.first().map_or(false, |first| first.start == 0)
}

fn ends_the_week(windows: &[Window]) -> bool {
    windows
        .last()
        .map_or(false, |last| last.end == TICKS_PER_WEEK)
}

/// What windows are refused for: the count of them, or the windows.
type Way = (&'static str, fn(u8, &[Window]) -> bool);

const WAYS: [Way; 7] = [
    ("a count over eight", |count, _| count > 8),
    ("a start at its end", |_, windows| {
        windows.iter().any(|window| window.start == window.end)
    }),
    ("a start after its end", |_, windows| {
        windows.iter().any(|window| window.start > window.end)
    }),
    ("an end past the week", |_, windows| {
        windows.iter().any(|window| window.end > TICKS_PER_WEEK)
    }),
    ("two that touch", |_, windows| {
        neighbours(windows, |one, next| one.end == next.start)
    }),
    ("two that do not ascend", |_, windows| {
        neighbours(windows, |one, next| one.end > next.start)
    }),
    (
        "the first at 0 with the last ending the week",
        |_, windows| starts_the_week(windows) && ends_the_week(windows),
    ),
];

/// The items, each with its condition.
pub fn conditions() -> Vec<(String, Condition)> {
    let mut list = family(
        WAYS,
        |(name, _)| format!("windows refused with 16 for {} alone", name),
        |m, (_, way)| {
            m.windows_call(16).map_or(false, |(count, numbers)| {
                let windows = first_windows(count, &numbers);
                let holds = |(_, other): &&Way| other(count, &windows);
                way(count, &windows) && WAYS.iter().filter(holds).count() == 1
            })
        },
    );
    list.extend(family(
        [9, 255],
        |count| format!("windows refused with 16: {}", count),
        |m, count| {
            m.windows_call(16)
                .map_or(false, |(other, _)| other == count)
        },
    ));
    list.extend(family(
        0..=8,
        |count| format!("windows set: {}", count),
        |m, count| m.windows_call(0).map_or(false, |(other, _)| other == count),
    ));
    list.extend(family(
        0..8,
        |index| format!("switch blocked by window {}", index + 1),
        |m, index| m.blocked() && m.before.week.windows.get(index).copied() == m.window(),
    ));
    list.extend(family(
        [0, LAST],
        |place| format!("place {} set", grouped(place.into())),
        |m, place| m.placed(0) == Some(place),
    ));
    list.extend(family(
        [TICKS_PER_WEEK, u32::MAX],
        |place| format!("place {} refused with 16", grouped(place.into())),
        |m, place| m.placed(16) == Some(place),
    ));
    list.extend(singles(CALLS));
    list.extend(singles(TICKS));
    list
}

/// The items of the calls.
const CALLS: &[(&str, SingleCondition)] = &[
    ("window of one tick set", |m| {
        m.windows_set(|windows| windows.iter().any(|window| window.start + 1 == window.end))
    }),
    ("windows with one free tick between set", |m| {
        m.windows_set(|windows| neighbours(windows, |one, next| one.end + 1 == next.start))
    }),
    ("window at 0 set", |m| m.windows_set(starts_the_week)),
    ("window that ends the week set", |m| {
        m.windows_set(ends_the_week)
    }),
    ("windows set with other numbers after them", |m| {
        m.windows_call(0).map_or(false, |(_, numbers)| {
            !windows_can_be(&first_windows(8, &numbers)) && numbers[15] != 0
        })
    }),
    ("fewer windows set than before", |m| {
        m.windows_call(0).is_some() && m.after.week.windows.len() < m.before.week.windows.len()
    }),
    ("windows set during a wait", |m| {
        m.windows_call(0).is_some() && m.before.wait.ticks > 0
    }),
    ("place set during a wait", |m| {
        m.placed(0).is_some() && m.before.wait.ticks > 0
    }),
    ("place set in a window", |m| {
        m.placed(0).is_some() && m.before.week.busy()
    }),
    ("place set into a window during a wait", |m| {
        let week = (&m.before.week, &m.after.week);
        m.placed(0).is_some() && m.before.wait.ticks > 0 && !week.0.busy() && week.1.busy()
    }),
    ("place set out of a window, a switch blocked", |m| {
        m.placed(0).is_some() && m.was_blocked() && !m.after.week.busy()
    }),
    ("windows set around the place during a wait", |m| {
        let week = (&m.before.week, &m.after.week);
        m.windows_call(0).is_some() && m.before.wait.ticks > 0 && !week.0.busy() && week.1.busy()
    }),
    ("windows taken away, a switch blocked", |m| {
        m.windows_call(0).is_some() && m.was_blocked() && !m.after.week.busy()
    }),
    ("place or windows set, a switch still blocked", |m| {
        m.week_set() && m.was_blocked() && m.after.week.busy()
    }),
    ("call refused with 16 during a wait in a window", |m| {
        m.refused_with_16() && m.before.week.busy() && m.before.wait.ticks > 0
    }),
    ("call refused with 16, windows set", |m| {
        m.refused_with_16() && !m.before.week.windows.is_empty()
    }),
    ("table that loads, windows set", |m| {
        m.table_loaded() && !m.before.week.windows.is_empty()
    }),
    ("table that loads, the place not 0", |m| {
        m.table_loaded() && m.before.week.place != 0
    }),
    ("table that loads in a window during a wait", |m| {
        m.table_loaded() && m.before.week.busy() && m.before.wait.ticks > 0
    }),
];

/// The items of the ticks, and of what comes between them in a window.
const TICKS: &[(&str, SingleCondition)] = &[
    ("reversion blocked, delay 0", |m| {
        m.blocked() && m.after.settings.delay == 0
    }),
    ("reversion blocked, delay not 0", |m| {
        m.blocked() && m.after.settings.delay > 0
    }),
    ("reversion to a reference blocked", |m| {
        m.blocked() && m.after.wait.best != FREE_RUN
    }),
    ("reversion to Free Run blocked", |m| {
        m.blocked() && m.after.wait.best == FREE_RUN
    }),
    ("reversion from Free Run blocked", |m| {
        m.blocked() && m.after.selected == FREE_RUN
    }),
    ("reversion blocked by a window that begins with it", |m| {
        let in_time = m.before.wait.ticks == m.n();
        in_time && m.blocked_at(|window, place| place == window.start)
    }),
    ("reversion blocked in a window's last tick", |m| {
        m.blocked_at(|window, place| place + 1 == window.end)
    }),
    ("reversion blocked in a window of one tick", |m| {
        m.blocked_at(|window, _| window.start + 1 == window.end)
    }),
    ("reversion done in the first tick after a window", |m| {
        m.first_free_switch()
    }),
    ("reversion done in the one free tick of two windows", |m| {
        let next = m.before.week.place + 1;
        let windows = &m.before.week.windows;
        m.first_free_switch() && windows.iter().any(|window| window.start == next)
    }),
    ("reversion done in the last tick before a window", |m| {
        m.automatic_tick() && m.left_a_candidate() && !m.before.week.busy() && m.after.week.busy()
    }),
    ("wait that goes on after a window", |m| {
        m.first_free_tick() && m.before.wait.ticks > 0 && m.after.wait.ticks > 1
    }),
    ("wait that rises in a window", |m| {
        m.busy_tick() && m.before.wait.ticks > 0 && m.after.wait.ticks > m.before.wait.ticks
    }),
    ("wait that stays at n + 1", |m| {
        m.blocked() && m.before.wait == m.after.wait && m.after.wait.ticks == m.n() + 1
    }),
    ("wait that stays above n + 1", |m| {
        m.blocked() && m.before.wait == m.after.wait && m.after.wait.ticks > m.n() + 1
    }),
    ("wait of 119,533 ticks in a window", |m| {
        m.blocked() && m.after.wait.ticks == 119_533
    }),
    ("wait that begins in a window", |m| {
        m.busy_tick() && m.before.wait.ticks == 0 && m.after.wait.ticks == 1
    }),
    (
        "wait of n + 1 in a window restarted for another best",
        |m| m.busy_tick() && m.was_blocked() && m.after.wait.ticks == 1 && m.n() > 0,
    ),
    ("wait for another best in a window, delay 0", |m| {
        m.blocked() && m.before.wait.ticks > 0 && m.before.wait.best != m.after.wait.best
    }),
    ("wait in a window zeroed without a change", |m| {
        m.busy_tick()
            && m.before.wait.ticks > 0
            && m.after.wait.ticks == 0
            && !m.selection_changed()
    }),
    ("longer delay written, the wait at n + 1", |m| {
        m.delay_in_window() && m.was_blocked() && m.after.settings.delay > m.before.settings.delay
    }),
    ("shorter delay written, the wait above its n + 1", |m| {
        m.delay_in_window() && m.before.wait.ticks > m.n() + 1
    }),
    ("reference lost in a window, another selected", |m| {
        m.lost_in_window() && m.before.reference_selected() && m.after.reference_selected()
    }),
    ("reference lost in a window, none selected", |m| {
        m.lost_in_window() && m.before.reference_selected() && m.after.selected == 0
    }),
    ("reference lost in a window, Free Run selected", |m| {
        m.lost_in_window() && m.after.selected == FREE_RUN
    }),
    (
        "reference lost in a window, the switch blocked before",
        |m| m.lost_in_window() && m.before.reference_selected() && m.was_blocked(),
    ),
    ("Free Run lost in a window", |m| {
        m.lost_in_window() && m.before.selected == FREE_RUN
    }),
    ("selection from none in a window", |m| {
        m.busy_tick() && m.automatic_tick() && m.before.selected == 0 && m.after.selected != 0
    }),
    ("manual switch in a window", |m| {
        m.busy_tick() && m.manual_tick() && m.before.selected != 0 && m.selection_changed()
    }),
    ("Hit in a window during a wait", |m| {
        m.accepted_hit() && m.before.week.busy() && m.before.wait.ticks > 0
    }),
    ("tick refused in a window during a wait", |m| {
        m.refusal == 7 && m.before.week.busy() && m.before.wait.ticks > 0
    }),
    ("tick refused in a window's last place", |m| {
        let last = |window: Window| m.before.week.place + 1 == window.end;
        m.refusal == 7 && m.window().map_or(false, last)
    }),
    ("week that ends", |m| m.week_ends()),
    ("week that ends during a wait", |m| {
        m.week_ends() && m.before.wait.ticks > 0 && m.after.wait.ticks > 0
    }),
    ("week that ends with a switch blocked", |m| {
        m.week_ends() && m.blocked()
    }),
    ("week that ends before a window at 0", |m| {
        m.week_ends() && m.after.week.busy()
    }),
    ("reversion blocked in the first tick of a week", |m| {
        m.blocked() && m.before.week.place == 0
    }),
    ("reversion done in the first tick of a week", |m| {
        m.first_free_switch() && m.before.week.place == 0
    }),
];
