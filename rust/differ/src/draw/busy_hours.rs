//! The calls that set the place in the week and the windows, drawn at random:
//! such as are accepted, and such as are refused.

use crate::windows::LAST;
use model::{windows_can_be, Call, Window, MOST_WINDOWS, TICKS_PER_WEEK, WINDOW_NUMBERS};
use shared::random::Random;

/// A place in the week, most often near its end or its start.
pub fn place(random: &mut Random) -> u32 {
    let near = random.below(100);
    let any = random.below(TICKS_PER_WEEK);
    random.pick(&[0, near, LAST, LAST - near, LAST - near, any])
}

/// A call that sets windows which can be: most often a few short ones, of which
/// the first begins at the place, a tick after it, or up to 60 ticks before it.
pub fn windows_call(random: &mut Random, place: u32) -> Call {
    let edge = random.pick(&[
        Window::of(0, 1),
        Window::of(0, LAST),
        Window::of(1, TICKS_PER_WEEK),
        Window::of(LAST, TICKS_PER_WEEK),
    ]);
    let windows = match random.below(12) {
        0 => any_windows(random),
        1 => vec![edge],
        _ => few_windows(random, place),
    };
    call_of(random, &windows)
}

/// From one to eight short windows, of which the first begins at the place, a
/// tick after it, or up to 60 ticks before it.
fn few_windows(random: &mut Random, place: u32) -> Vec<Window> {
    let count = random.pick(&[1, 1, 2, 2, 3, 5, 7, 8]);
    windows_near(random, place, count)
}

/// So many short windows, of which the first begins at the place, a tick after
/// it, or up to 60 ticks before it, and each other follows soon. Beyond the
/// week's end they go on at its start; what is cut off there is left out.
fn windows_near(random: &mut Random, place: u32, count: usize) -> Vec<Window> {
    let before = random.pick(&[0, 0, 0, 1, 2, 10, 60]);
    let after = random.pick(&[0, 0, 0, 1]);
    let mut windows = Vec::new();
    let mut from = place + TICKS_PER_WEEK - before + after;
    for _ in 0..count {
        let start = from % TICKS_PER_WEEK;
        let length = random.pick(&[1, 1, 2, 3, 20, 60, 300, 300]);
        windows.push(Window::of(start, (start + length).min(TICKS_PER_WEEK)));
        from += length + random.pick(&[1, 1, 1, 2, 30]);
    }
    windows.sort_by_key(|window| window.start);
    windows
}

/// Windows anywhere in the week, up to eight.
fn any_windows(random: &mut Random) -> Vec<Window> {
    let count = 2 * random.below(MOST_WINDOWS as u32 + 1);
    let mut places: Vec<_> = (0..count)
        .map(|_| random.below(TICKS_PER_WEEK + 1))
        .collect();
    places.sort_unstable();
    let pairs = places.chunks_exact(2);
    let windows: Vec<_> = pairs.map(|pair| Window::of(pair[0], pair[1])).collect();
    match windows_can_be(&windows) {
        true => windows,
        false => Vec::new(),
    }
}

/// The call that sets these windows; the numbers after them are 0, or any.
fn call_of(random: &mut Random, windows: &[Window]) -> Call {
    let call = Call::windows(windows);
    match call {
        Call::SetWindows { count, mut numbers } if random.one_in(2) => {
            let after = numbers.iter_mut().skip(2 * windows.len());
            after.for_each(|number| *number = any_number(random));
            Call::SetWindows { count, numbers }
        }
        _ => call,
    }
}

/// A number of any size, often next to a bound.
fn any_number(random: &mut Random) -> u32 {
    let word = random.word() as u32;
    random.pick(&[0, word % 100, TICKS_PER_WEEK - 1 + word % 3, u32::MAX, word])
}

/// A call to be refused, for one reason or for two, often by as little as can
/// be.
pub fn refused_week_call(random: &mut Random) -> Call {
    let (word, byte) = (random.word() as u32, random.byte());
    let near = place(random);
    let windows = few_windows(random, near);
    match random.below(8) {
        0 | 1 => {
            let beyond = TICKS_PER_WEEK.max(word);
            let place = random.pick(&[TICKS_PER_WEEK, TICKS_PER_WEEK, beyond, u32::MAX]);
            Call::SetWeek { place }
        }
        2 => {
            let count = random.pick(&[9, 9, 9.max(byte), 255]);
            let windows = windows_near(random, near, MOST_WINDOWS);
            over_eight(count, &windows)
        }
        3 => {
            let twice = spoilt(random, windows);
            let twice = spoilt(random, twice);
            match windows_can_be(&twice) {
                true => refused_week_call(random),
                false => call_of(random, &twice),
            }
        }
        _ => {
            let windows = spoilt(random, windows);
            call_of(random, &windows)
        }
    }
}

/// The call with these windows and another count.
fn over_eight(count: u8, windows: &[Window]) -> Call {
    match Call::windows(windows) {
        Call::SetWindows { numbers, .. } => Call::SetWindows { count, numbers },
        call => call,
    }
}

/// The windows, of which there is one at least, with one thing wrong. What
/// follows the wrong one may be left out.
fn spoilt(random: &mut Random, mut windows: Vec<Window>) -> Vec<Window> {
    let (word, last) = (random.word() as u32, windows.len() - 1);
    let place = random.below(windows.len() as u32) as usize;
    let Window { start, end } = windows[place];
    match random.below(7) {
        0 => windows[place].end = start,
        1 => windows[place] = Window::of(end, start),
        2 => {
            let beyond = random.pick(&[TICKS_PER_WEEK + 1, u32::MAX, TICKS_PER_WEEK.max(word)]);
            windows[last].end = beyond.max(TICKS_PER_WEEK + 1);
        }
        3 => {
            windows.truncate((place + 1).min(MOST_WINDOWS - 1));
            let end = windows[windows.len() - 1].end;
            windows.push(Window::of(end, end.saturating_add(1)));
        }
        4 => {
            windows.truncate((place + 1).min(MOST_WINDOWS - 1));
            let Window { start, end } = windows[windows.len() - 1];
            windows.push(Window::of(start, end));
        }
        5 if last > 0 => windows.swap(0, last),
        _ => {
            windows[0].start = 0;
            windows[last].end = TICKS_PER_WEEK;
        }
    }
    windows
}

/// A call with any numbers, most often small ones that rise.
pub fn any_week_call(random: &mut Random) -> Call {
    let word = random.word() as u32;
    if random.one_in(2) {
        let place = random.pick(&[word % 40, word % 40, TICKS_PER_WEEK - 3 + word % 4, word]);
        return Call::SetWeek { place };
    }
    let mut last = random.pick(&[0, 0, word % 40, TICKS_PER_WEEK - 20]);
    let numbers = [0; WINDOW_NUMBERS].map(|_: u32| {
        last += random.below(5);
        last
    });
    let count = random.pick(&[0, 1, 1, 2, 2, 3, 8, 9, word as u8]);
    Call::SetWindows { count, numbers }
}
