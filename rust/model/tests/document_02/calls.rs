//! Short ways to take a call.

use model::{Call, Unit, Window};

/// The ticks of a week.
pub const WEEK: u32 = 4_725_000;

/// Takes a call that must be accepted.
pub fn accept_call(unit: &mut Unit, call: Call) {
    assert_eq!(unit.call(&call), 0, "{:?} is refused", call);
}

/// Takes a call that must be refused with this number, the state unchanged.
pub fn refuse_call(unit: &mut Unit, call: Call, number: u8) {
    let before = unit.clone();
    assert_eq!(unit.call(&call), number, "{:?}", call);
    assert_eq!(*unit, before, "{:?} changes the state", call);
}

pub fn set_week(unit: &mut Unit, place: u32) {
    accept_call(unit, Call::SetWeek { place });
}

/// The windows with these starts and ends.
pub fn windows(list: &[(u32, u32)]) -> Vec<Window> {
    let window = |&(start, end): &(u32, u32)| Window { start, end };
    list.iter().map(window).collect()
}

pub fn set_windows(unit: &mut Unit, list: &[(u32, u32)]) {
    accept_call(unit, Call::windows(&windows(list)));
    assert_eq!(unit.week.windows, windows(list));
}
