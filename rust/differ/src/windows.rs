//! The numbers of a call that sets windows, and such calls made plainer.

use model::{Call, Window, MOST_WINDOWS, TICKS_PER_WEEK, WINDOW_NUMBERS};
use std::fmt;

/// The last place of the week.
pub const LAST: u32 = TICKS_PER_WEEK - 1;

/// The 16 numbers of a call.
pub type Numbers = [u32; WINDOW_NUMBERS];

/// Start and end of each of the first windows, of eight at most.
pub fn first_windows(count: u8, numbers: &Numbers) -> Vec<Window> {
    let pairs = numbers.chunks_exact(2).take(usize::from(count));
    pairs.map(|pair| Window::of(pair[0], pair[1])).collect()
}

/// No windows, no number after those that are looked at, and the windows without
/// one of them; of more than eight, nine.
pub fn plainer_windows(count: u8, numbers: Numbers) -> Vec<Call> {
    if usize::from(count) > MOST_WINDOWS {
        let nine = |numbers| Call::SetWindows { count: 9, numbers };
        return vec![nine(numbers), nine([0; WINDOW_NUMBERS])];
    }
    let windows = first_windows(count, &numbers);
    let without = |place| {
        let mut fewer = windows.clone();
        fewer.remove(place);
        Call::windows(&fewer)
    };
    let mut forms = vec![Call::windows(&[]), Call::windows(&windows)];
    forms.extend((0..windows.len()).map(without));
    forms
}

/// The windows, and the numbers after them where there are any.
pub fn show_windows(f: &mut fmt::Formatter, count: u8, numbers: Numbers) -> fmt::Result {
    write!(f, "set windows {}:", count)?;
    let windows = first_windows(count, &numbers);
    for Window { start, end } in &windows {
        write!(f, " {}-{}", start, end)?;
    }
    let rest = &numbers[2 * windows.len()..];
    if rest.iter().any(|&number| number != 0) {
        write!(f, " and not looked at: {:?}", rest)?;
    }
    Ok(())
}
