//! #107: the calls that set the place in the week and the windows, and the place
//! from tick to tick.

use crate::bench::*;
use crate::calls::*;
use model::{Call, Event, Unit, Week, Window, SAMPLE_LIMIT};

fn refuse_windows(unit: &mut Unit, list: &[(u32, u32)]) {
    refuse_call(unit, Call::windows(&windows(list)), 16);
}

/// A unit with a past, and with a place and windows.
fn waiting() -> Unit {
    let mut unit = reverting(1);
    wait_ticks(&mut unit, 100);
    set_week(&mut unit, 7);
    set_windows(&mut unit, &[(5, 9), (20, 30)]);
    unit
}

/// "fresh 0, with no windows"
#[test]
fn a_fresh_unit_has_place_0_and_no_windows() {
    let unit = Unit::fresh();
    assert_eq!((unit.week.place, unit.week.windows.len()), (0, 0));
}

/// "16: place 4,725,000 or more"
#[test]
fn the_bounds_of_the_place() {
    for mut unit in [Unit::fresh(), waiting()] {
        for place in [0, 1, 4_724_998, 4_724_999] {
            set_week(&mut unit, place);
            assert_eq!(unit.week.place, place);
        }
        for place in [4_725_000, 4_725_001, 1 << 31, u32::MAX] {
            refuse_call(&mut unit, Call::SetWeek { place }, 16);
        }
    }
}

/// "16: [...] start not before end, end past the week"
#[test]
fn the_bounds_of_a_window() {
    for mut unit in [Unit::fresh(), waiting()] {
        for window in [
            (0, 1),
            (5, 6),
            (0, WEEK - 1),
            (1, WEEK),
            (WEEK - 2, WEEK),
            (WEEK - 1, WEEK),
        ] {
            set_windows(&mut unit, &[window]);
        }
        for window in [
            (0, 0),
            (5, 5),
            (6, 5),
            (WEEK, WEEK),
            (5, WEEK + 1),
            (WEEK - 1, WEEK + 1),
            (WEEK, WEEK + 1),
            (1, u32::MAX),
            (u32::MAX, 0),
            (u32::MAX, u32::MAX),
        ] {
            refuse_windows(&mut unit, &[window]);
        }
    }
}

/// "16: [...] not ascending with a free tick between": one that ends where the
/// next starts has none.
#[test]
fn a_free_tick_is_between_two_windows() {
    for mut unit in [Unit::fresh(), waiting()] {
        for next in [(21, 22), (21, WEEK), (22, 30), (WEEK - 1, WEEK)] {
            set_windows(&mut unit, &[(10, 20), next]);
        }
        for next in [
            (20, 30),
            (19, 30),
            (12, 18),
            (10, 20),
            (10, 30),
            (5, 15),
            (5, 25),
            (5, 10),
            (5, 9),
            (0, 1),
        ] {
            refuse_windows(&mut unit, &[(10, 20), next]);
        }
    }
}

/// Eight windows with one free tick between each and the next.
fn eight() -> [(u32, u32); 8] {
    [0, 1, 2, 3, 4, 5, 6, 7].map(|index| (10 * index + 1, 10 * index + 10))
}

/// Each of the eight, and each two neighbours of them, are asked.
#[test]
fn each_window_of_eight_is_checked() {
    let mut unit = waiting();
    set_windows(&mut unit, &eight());
    for place in 0..8 {
        let with = |window| {
            let mut list = eight();
            list[place] = window;
            list
        };
        let (start, end) = eight()[place];
        for wrong in [(start, start), (end, start), (start, WEEK + 1)] {
            refuse_windows(&mut unit, &with(wrong));
        }
        if place < 7 {
            refuse_windows(&mut unit, &with((start, end + 1)));
        }
        if place > 0 {
            refuse_windows(&mut unit, &with((start - 1, end)));
        }
        set_windows(&mut unit, &with((start + 1, end - 1)));
    }
}

/// "16: [...] first at 0 with last ending the week": either alone is accepted.
#[test]
fn a_window_over_the_weeks_end_cannot_be_made_of_two() {
    let mut unit = waiting();
    for list in [
        &[(0, WEEK)][..],
        &[(0, 1), (WEEK - 1, WEEK)],
        &[(0, 10), (20, WEEK)],
        &[(0, 10), (20, 30), (40, WEEK)],
    ] {
        refuse_windows(&mut unit, list);
    }
    for list in [
        &[(0, WEEK - 1)][..],
        &[(1, WEEK)],
        &[(0, 1), (WEEK - 2, WEEK - 1)],
        &[(1, 2), (WEEK - 1, WEEK)],
        &[(0, 10), (20, 30), (40, WEEK - 1)],
        &[(1, 10), (20, 30), (40, WEEK)],
    ] {
        set_windows(&mut unit, list);
    }
}

/// "Up to eight windows"; "16: [...] over eight windows"
#[test]
fn eight_windows_and_no_more() {
    let mut unit = waiting();
    let good = eight();
    for count in 0..=8 {
        set_windows(&mut unit, &good[..count]);
    }
    let numbers = match Call::windows(&windows(&good)) {
        Call::SetWindows { numbers, .. } => numbers,
        _ => unreachable!("the call that sets windows"),
    };
    for count in 9..=255 {
        refuse_call(&mut unit, Call::SetWindows { count, numbers }, 16);
    }
    let numbers = [0; 16];
    refuse_call(&mut unit, Call::SetWindows { count: 9, numbers }, 16);
}

/// Of the 16 numbers those of the first `count` windows alone are looked at.
#[test]
fn the_numbers_after_the_windows_are_not_looked_at() {
    let mut unit = waiting();
    for wrong in [(0, 0), (9, 3), (1, 2), (0, WEEK), (u32::MAX, u32::MAX)] {
        for count in 0..=8 {
            let mut numbers = [0; 16];
            for (index, pair) in numbers.chunks_exact_mut(2).enumerate() {
                let good = index < usize::from(count);
                let (start, end) = if good { eight()[index] } else { wrong };
                pair.copy_from_slice(&[start, end]);
            }
            accept_call(&mut unit, Call::SetWindows { count, numbers });
            assert_eq!(
                unit.week.windows,
                windows(&eight()[..usize::from(count)]),
                "{:?} after {}",
                wrong,
                count
            );
            // One more, and the first of them is looked at.
            if (1..8).contains(&count) {
                let count = count + 1;
                refuse_call(&mut unit, Call::SetWindows { count, numbers }, 16);
            }
        }
    }
}

/// No windows are set as any others are: those before are gone.
#[test]
fn no_windows_clear_them() {
    let mut unit = waiting();
    set_windows(&mut unit, &[]);
    assert_eq!(unit.week.windows, []);
}

/// The wait, what is selected and the inputs are left as they were, and each
/// call leaves what the other sets.
#[test]
fn a_call_changes_nothing_else() {
    let mut unit = waiting();
    let before = unit.clone();
    set_week(&mut unit, 25);
    let week = Week {
        place: 25,
        ..before.week.clone()
    };
    assert_eq!(unit, Unit { week, ..before });
    let before = unit.clone();
    set_windows(&mut unit, &[(1, 2)]);
    let week = Week {
        windows: vec![Window::of(1, 2)],
        ..before.week.clone()
    };
    assert_eq!(unit, Unit { week, ..before });
}

/// "each tick advances it": each that is accepted, in every state, and nothing
/// else.
#[test]
fn each_accepted_tick_advances_the_place() {
    for mut unit in [Unit::fresh(), waiting(), holdover(), manual(&[3])] {
        let place = unit.week.place;
        clean_ticks(&mut unit, 1);
        assert_eq!(unit.week.place, place + 1);
        for sample in [SAMPLE_LIMIT + 1, -SAMPLE_LIMIT - 1] {
            let (mask, lock) = (0, true);
            refuse(&mut unit, Event::Tick { mask, lock, sample }, 7);
        }
        measure(&mut unit, 1, 5);
        write(&mut unit, 0x43, 2);
        if unit.reference_selected() {
            hit(&mut unit);
        }
        assert_eq!(unit.week.place, place + 1);
        tick(&mut unit, 0xff, false, SAMPLE_LIMIT);
        assert_eq!(unit.week.place, place + 2);
    }
}

/// "returning to 0 at the end"
#[test]
fn the_place_returns_to_0() {
    let mut unit = Unit::fresh();
    set_week(&mut unit, 4_724_998);
    for place in [4_724_999, 0, 1] {
        clean_ticks(&mut unit, 1);
        assert_eq!(unit.week.place, place);
    }
}

/// "A week is 4,725,000 ticks"
#[test]
fn a_week_later_the_place_is_the_same() {
    let mut unit = Unit::fresh();
    set_week(&mut unit, 1_234_567);
    clean_ticks(&mut unit, WEEK);
    assert_eq!(unit.week.place, 1_234_567);
}

/// Document 02, #105: all but the registers is as in any fresh unit.
#[test]
fn a_loaded_unit_has_place_0_and_no_windows() {
    let mut unit = waiting();
    assert_eq!(unit.load(&model::STANDARD_TABLE), 0);
    assert_eq!(unit, Unit::fresh());
    let mut unit = waiting();
    let before = unit.clone();
    assert_eq!(unit.load(&model::STANDARD_TABLE[1..]), 15);
    assert_eq!(unit, before);
}
