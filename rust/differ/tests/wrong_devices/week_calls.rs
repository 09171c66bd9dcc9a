//! The faults of #107 in the calls that set the place and the windows, and in
//! what a table leaves of them.

use crate::faults::*;
use differ::windows::{first_windows, LAST};
use model::{windows_can_be, Call, Unit, Wait, Week, Window, MOST_WINDOWS, TICKS_PER_WEEK};

/// The windows of a call for eight at most.
fn windows_of(call: Call) -> Option<Vec<Window>> {
    match call {
        Call::SetWindows { count, numbers } if count <= 8 => Some(first_windows(count, &numbers)),
        _ => None,
    }
}

/// Sets windows that are refused, if this holds of them.
fn let_through(unit: &mut Unit, call: Call, wrong: impl Fn(&[Window]) -> bool) -> u8 {
    let refusal = right_call(unit, call);
    match windows_of(call) {
        Some(windows) if refusal != 0 && wrong(&windows) => {
            unit.week.windows = windows;
            0
        }
        _ => refusal,
    }
}

/// As `let_through`, of windows of which each can be for itself: two neighbours
/// are wrong.
fn let_neighbours_through(unit: &mut Unit, call: Call, wrong: fn(&Window, &Window) -> bool) -> u8 {
    let_through(unit, call, |windows| {
        let mut neighbours = windows.windows(2);
        windows.iter().all(Window::within_bounds) && neighbours.any(|two| wrong(&two[0], &two[1]))
    })
}

/// Refuses windows that can be, if this holds of them.
fn refuse_windows(unit: &mut Unit, call: Call, wrong: fn(&[Window]) -> bool) -> u8 {
    match windows_of(call) {
        Some(windows) if windows_can_be(&windows) && wrong(&windows) => 16,
        _ => right_call(unit, call),
    }
}

/// Takes a call with another count in place of this.
fn with_count(unit: &mut Unit, call: Call, other: fn(u8) -> u8) -> u8 {
    match call {
        Call::SetWindows { count, numbers } => {
            let count = other(count);
            right_call(unit, Call::SetWindows { count, numbers })
        }
        _ => right_call(unit, call),
    }
}

/// Alters the unit after an accepted call that sets windows, or the place.
fn then_if(unit: &mut Unit, call: Call, windows: bool, alter: fn(&Unit, &mut Unit)) -> u8 {
    let sets_windows = matches!(call, Call::SetWindows { .. });
    let sets_place = matches!(call, Call::SetWeek { .. });
    then_after_call(unit, call, |before, after| {
        if sets_windows && windows || sets_place && !windows {
            alter(before, after);
        }
    })
}

fn then_if_windows(unit: &mut Unit, call: Call, alter: fn(&Unit, &mut Unit)) -> u8 {
    then_if(unit, call, true, alter)
}

fn then_if_place(unit: &mut Unit, call: Call, alter: fn(&Unit, &mut Unit)) -> u8 {
    then_if(unit, call, false, alter)
}

/// Spoils the week where one of its calls is refused.
fn then_if_refused(unit: &mut Unit, call: Call, spoil: fn(&mut Week, Call)) -> u8 {
    let refusal = right_call(unit, call);
    if refusal == 16 {
        spoil(&mut unit.week, call);
    }
    refusal
}

pub static FAULTS: &[Fault] = &[
    in_call("place 4,725,000 let through", |unit, call| match call {
        Call::SetWeek {
            place: TICKS_PER_WEEK,
        } => {
            unit.week.place = TICKS_PER_WEEK;
            0
        }
        _ => right_call(unit, call),
    }),
    in_call("any place let through", |unit, call| match call {
        Call::SetWeek { place } => {
            unit.week.place = place.min(TICKS_PER_WEEK);
            0
        }
        _ => right_call(unit, call),
    }),
    in_call("place 4,724,999 refused", |unit, call| match call {
        Call::SetWeek { place: LAST } => 16,
        _ => right_call(unit, call),
    }),
    in_call("the place set one later", |unit, call| {
        then_if_place(unit, call, |_, after| {
            after.week.place = (after.week.place + 1) % TICKS_PER_WEEK;
        })
    }),
    in_call("the upper bits of the place dropped", |unit, call| {
        then_if_place(unit, call, |_, after| after.week.place &= 0xffff)
    }),
    in_call("no place set in a window", |unit, call| {
        then_if_place(unit, call, |before, after| {
            if before.week.busy() {
                after.week.place = before.week.place;
            }
        })
    }),
    in_call("the place refused in a window", |unit, call| match call {
        Call::SetWeek { .. } if unit.week.busy() => 16,
        _ => right_call(unit, call),
    }),
    in_call("setting the place zeroes the wait", |unit, call| {
        then_if_place(unit, call, |_, after| after.wait = Wait::ZERO)
    }),
    in_call("setting the place clears the windows", |unit, call| {
        then_if_place(unit, call, |_, after| after.week.windows.clear())
    }),
    in_call("nine windows let through", |unit, call| {
        with_count(unit, call, |count| if count == 9 { 8 } else { count })
    }),
    in_call("a count over eight taken for eight", |unit, call| {
        with_count(unit, call, |count| count.min(8))
    }),
    in_call("the upper bits of the count dropped", |unit, call| {
        with_count(unit, call, |count| count % 16)
    }),
    in_call("eight windows refused", |unit, call| {
        refuse_windows(unit, call, |windows| windows.len() == MOST_WINDOWS)
    }),
    in_call("no windows refused", |unit, call| {
        refuse_windows(unit, call, |windows| windows.is_empty())
    }),
    in_call("a window of no tick let through", |unit, call| {
        let_through(unit, call, |windows| {
            windows.iter().all(|window| window.start <= window.end)
                && windows.iter().any(|window| window.start == window.end)
        })
    }),
    in_call("a start after its end let through", |unit, call| {
        let_through(unit, call, |windows| {
            windows.iter().any(|window| window.start > window.end)
        })
    }),
    in_call("a window of one tick refused", |unit, call| {
        refuse_windows(unit, call, |windows| {
            windows.iter().any(|window| window.start + 1 == window.end)
        })
    }),
    in_call("an end one past the week let through", |unit, call| {
        let_through(unit, call, |windows| {
            windows
                .iter()
                .any(|window| window.end == TICKS_PER_WEEK + 1)
        })
    }),
    in_call("any end let through", |unit, call| {
        let_through(unit, call, |windows| {
            windows.iter().any(|window| window.end > TICKS_PER_WEEK)
        })
    }),
    in_call("a window that ends the week refused", |unit, call| {
        refuse_windows(unit, call, |windows| {
            windows.iter().any(|window| window.end == TICKS_PER_WEEK)
        })
    }),
    in_call("a window at 0 refused", |unit, call| {
        refuse_windows(unit, call, |windows| {
            windows.iter().any(|window| window.start == 0)
        })
    }),
    in_call("windows that touch let through", |unit, call| {
        let_neighbours_through(unit, call, |one, next| one.end == next.start)
    }),
    in_call("windows that overlap let through", |unit, call| {
        let_neighbours_through(unit, call, |one, next| one.end > next.start)
    }),
    in_call("windows one tick apart refused", |unit, call| {
        refuse_windows(unit, call, |windows| {
            let mut neighbours = windows.windows(2);
            neighbours.any(|two| two[0].end + 1 == two[1].start)
        })
    }),
    in_call("a window over the week's end let through", |unit, call| {
        let_through(unit, call, |windows| match windows {
            [first, .., last] => first.start == 0 && last.end == TICKS_PER_WEEK,
            _ => false,
        })
    }),
    in_call("a window of the whole week let through", |unit, call| {
        let_through(unit, call, |windows| {
            windows == [Window::of(0, TICKS_PER_WEEK)]
        })
    }),
    in_call("the last window not checked", |unit, call| {
        let_through(unit, call, |windows| match windows {
            [first @ .., _] => windows_can_be(first),
            [] => false,
        })
    }),
    in_call(
        "the numbers after the windows checked",
        |unit, call| match call {
            Call::SetWindows { count, numbers } if count <= 8 => {
                let all = first_windows(8, &numbers);
                let after = &all[usize::from(count)..];
                let set = after.iter().any(|window| *window != Window::of(0, 0));
                match set && !windows_can_be(after) {
                    true => 16,
                    false => right_call(unit, call),
                }
            }
            _ => right_call(unit, call),
        },
    ),
    in_call("the numbers after the windows set too", |unit, call| {
        then_after_call(unit, call, |_, after| {
            if let Call::SetWindows { numbers, .. } = call {
                after.week.windows = first_windows(8, &numbers);
            }
        })
    }),
    in_call("setting windows zeroes the wait", |unit, call| {
        then_if_windows(unit, call, |_, after| after.wait = Wait::ZERO)
    }),
    in_call("setting windows sets the place to 0", |unit, call| {
        then_if_windows(unit, call, |_, after| after.week.place = 0)
    }),
    in_call("windows added to those before", |unit, call| {
        then_if_windows(unit, call, |before, after| {
            let earlier = before.week.windows.iter().copied();
            after.week.windows.extend(earlier);
        })
    }),
    in_call("no windows leave those before", |unit, call| {
        then_if_windows(unit, call, |before, after| {
            if after.week.windows.is_empty() {
                after.week.windows = before.week.windows.clone();
            }
        })
    }),
    in_call("fewer windows leave the others", |unit, call| {
        then_if_windows(unit, call, |before, after| {
            let others = before.week.windows.iter().skip(after.week.windows.len());
            after.week.windows.extend(others);
        })
    }),
    in_call("windows are set once", |unit, call| {
        then_if_windows(unit, call, |before, after| {
            if !before.week.windows.is_empty() {
                after.week.windows = before.week.windows.clone();
            }
        })
    }),
    in_call("a refused call clears the windows", |unit, call| {
        then_if_refused(unit, call, |week, _| week.windows.clear())
    }),
    in_call("a refused place taken for 0", |unit, call| {
        then_if_refused(unit, call, |week, call| {
            if let Call::SetWeek { .. } = call {
                week.place = 0;
            }
        })
    }),
    in_call("windows up to the wrong one set", |unit, call| {
        then_if_refused(unit, call, |week, call| {
            if let Call::SetWindows { count, numbers } = call {
                let windows = first_windows(count, &numbers);
                let good = windows.into_iter().take_while(Window::within_bounds);
                week.windows = good.collect();
            }
        })
    }),
    in_call(
        "14 for windows that cannot be",
        |unit, call| match right_call(unit, call) {
            16 => 14,
            refusal => refusal,
        },
    ),
    in_load("the windows kept", |unit, table| {
        then_after_load(unit, table, |before, after| {
            after.week.windows = before.week.windows.clone();
        })
    }),
    in_load("the place kept", |unit, table| {
        then_after_load(unit, table, |before, after| {
            after.week.place = before.week.place;
        })
    }),
    in_load("a refused table clears the windows", |unit, table| {
        let refusal = right_load(unit, table);
        if refusal != 0 {
            unit.week.windows.clear();
        }
        refusal
    }),
];
