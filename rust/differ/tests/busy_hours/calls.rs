//! The calls: the place's bounds, every count, numbers around each bound in each
//! place, and random ones.

use crate::bench::Bench;
#[cfg(feature = "controller")]
use crate::held::{Held, SIZE};
use crate::{busy, windows, EIGHT, WEEK};
use differ::device::Device;
use differ::draw;
use differ::windows::{first_windows, Numbers};
use model::{Call, Window};
use shared::random::Random;

const SEED: u64 = 7;
/// How many random calls are tried.
const CALLS: u32 = 20_000;

/// Calls with what they are answered by: on a fresh unit, on one with a past,
/// and on whatever the calls before have left.
fn check_answers<D: Device>(make: &D, answers: &[(Call, u8)]) {
    for mut bench in [Bench::fresh(make), busy(make)] {
        for &(call, answer) in answers {
            assert_eq!(bench.send(call), answer, "{:?}", call);
            bench.clean_ticks(1);
        }
    }
}

/// "16: place 4,725,000 or more"
fn check_places<D: Device>(make: &D) {
    let good = [0, 1, 65_535, 65_536, WEEK - 2, WEEK - 1].map(|place| (place, 0));
    let beyond = [WEEK, WEEK + 1, 1 << 23, 1 << 31, WEEK << 8, u32::MAX].map(|place| (place, 16));
    let answers = good.into_iter().chain(beyond);
    let answers = answers.map(|(place, answer)| (Call::SetWeek { place }, answer));
    check_answers(make, &answers.collect::<Vec<_>>());
}

#[test]
fn the_bounds_of_the_place() {
    ask_all!(check_places);
}

/// "16: [...] start not before end, end past the week, not ascending with a free
/// tick between, or first at 0 with last ending the week"
fn check_windows<D: Device>(make: &D) {
    let lists = [
        (&[][..], 0),
        (&[(0, 1)], 0),
        (&[(5, 6)], 0),
        (&[(5, 5)], 16),
        (&[(6, 5)], 16),
        (&[(0, 0)], 16),
        (&[(WEEK - 1, WEEK)], 0),
        (&[(WEEK - 1, WEEK + 1)], 16),
        (&[(WEEK, WEEK + 1)], 16),
        (&[(1, u32::MAX)], 16),
        (&[(0, WEEK - 1)], 0),
        (&[(1, WEEK)], 0),
        (&[(0, WEEK)], 16),
        (&[(10, 20), (21, 30)], 0),
        (&[(10, 20), (20, 30)], 16),
        (&[(10, 20), (19, 30)], 16),
        (&[(10, 20), (10, 20)], 16),
        (&[(30, 40), (10, 20)], 16),
        (&[(0, 1), (2, 3), (4, 5), (6, 7), (8, 9)], 0),
        (&[(0, 1), (2, 3), (3, 5), (6, 7), (8, 9)], 16),
        (&[(0, 1), (WEEK - 1, WEEK)], 16),
        (&[(0, 1), (WEEK - 2, WEEK - 1)], 0),
        (&[(1, 2), (WEEK - 1, WEEK)], 0),
        (&[(0, 1), (9, 10), (WEEK - 1, WEEK)], 16),
    ];
    let answers = lists.map(|(list, answer)| (windows(list), answer));
    check_answers(make, &answers);
}

#[test]
fn the_bounds_of_windows() {
    ask_all!(check_windows);
}

/// Whether the windows are set, by the sentence of the document, read once more.
fn judged(count: u8, numbers: &Numbers) -> bool {
    let windows = first_windows(count, numbers);
    // The first place that the next window may start at.
    let mut free_from = 0;
    let mut over_the_end = windows.first().map_or(false, |first| first.start == 0);
    for &Window { start, end } in &windows {
        if start < free_from || end <= start || end > WEEK {
            return false;
        }
        free_from = end + 1;
    }
    over_the_end &= free_from == WEEK + 1;
    count <= 8 && !over_the_end
}

fn answer(count: u8, numbers: Numbers) -> (Call, u8) {
    let answer = if judged(count, &numbers) { 0 } else { 16 };
    (Call::SetWindows { count, numbers }, answer)
}

/// Every count, of windows that can be.
fn check_counts<D: Device>(make: &D) {
    let counts = (0..=255).map(|count| answer(count, EIGHT));
    let answers: Vec<_> = counts.collect();
    let accepted = answers.iter().filter(|answer| answer.1 == 0).count();
    assert_eq!(accepted, 9);
    check_answers(make, &answers);
}

#[test]
fn every_count() {
    ask_all!(check_counts);
}

/// In each of the 16 places, numbers around those beside it and around the
/// bounds; a number after the windows is not looked at.
fn check_numbers<D: Device>(make: &D) {
    let mut answers = Vec::new();
    for place in 0..16 {
        let others = EIGHT.iter().chain(&[0, WEEK]);
        let around = others.flat_map(|&number| number.saturating_sub(2)..number + 3);
        for number in around.chain([1 << 16, 1 << 24, 1 << 31, u32::MAX]) {
            let mut numbers = EIGHT;
            numbers[place] = number;
            let count = place as u8 / 2;
            for count in [count, count + 1, 8] {
                answers.push(answer(count, numbers));
            }
        }
    }
    let accepted = answers.iter().filter(|answer| answer.1 == 0).count();
    assert!(accepted > answers.len() / 3 && accepted < answers.len());
    check_answers(make, &answers);
}

#[test]
fn numbers_around_each_bound_in_each_place() {
    ask_all!(check_numbers);
}

/// An accepted call writes the week alone, whatever the unit's bytes are: the
/// place, or the windows with 0 and 0 after them.
#[test]
#[cfg(feature = "controller")]
fn an_accepted_call_writes_the_week_alone() {
    let mut random = Random::new(SEED);
    for _ in 0..CALLS / 10 {
        let bytes = [0; SIZE].map(|_| random.byte());
        let mut held = Held { units: [bytes; 2] };
        let mut expected = *held.unit();
        let place = draw::place(&mut random);
        let call = match random.one_in(2) {
            true => Call::SetWeek { place },
            false => draw::windows_call(&mut random, place),
        };
        if let Call::SetWindows { count, numbers } = call {
            let written = 2 * usize::from(count);
            expected.windows = [0; 16];
            expected.windows[..written].copy_from_slice(&numbers[..written]);
        } else {
            expected.core.place = place;
        }
        assert_eq!(held.send(call.into()).0, 0, "{:?}", call);
        assert!(*held.unit() == expected, "{:?}", call);
    }
}

/// Calls of any numbers, such as are accepted, and such as are refused.
fn check_random_calls<D: Device>(make: &D) {
    let mut random = Random::new(SEED);
    let mut bench = busy(make);
    let mut accepted = 0;
    for _ in 0..CALLS {
        let place = bench.unit().week.place;
        let calls = [
            draw::any_week_call(&mut random),
            draw::refused_week_call(&mut random),
            draw::windows_call(&mut random, place),
        ];
        let call = random.pick(&calls);
        let refusal = bench.send(call);
        if let Call::SetWindows { count, numbers } = call {
            assert_eq!((call, refusal), answer(count, numbers));
        }
        accepted += u32::from(refusal == 0);
        let (count, mask) = (random.below(3), random.byte() & random.byte());
        bench.ticks(count, mask, true);
    }
    assert!(accepted > CALLS / 4, "{} of {}", accepted, CALLS);
}

#[test]
fn random_calls() {
    ask_all!(check_random_calls);
}
