//! What is marked over the rows: refusals, the times of changes, calls, and cuts.

use super::layout::{Row, AXIS_Y, LINES_END, REFUSED, SELECTED, TIME_LEVELS, WIDTH};
use super::scale::{Scale, CUT_WIDTH};
use super::stretches::{calls as calls_of, refusals};
use super::svg::{text_width, Anchor, Svg, NORMAL, SMALL};
use crate::stepped::Moment;
use crate::time::seconds;
use std::collections::BTreeSet;

const CHANGE_LINE: &str =
    "fill=\"none\" stroke=\"#777\" stroke-width=\"0.7\" stroke-dasharray=\"2 2\"";
pub const CALL_LINE: &str = "fill=\"none\" stroke=\"#05a\" stroke-width=\"1.5\"";

/// The refusals, each marked at its time. The numbers stand below; those without
/// room for their own stand with the one before.
pub fn refused(svg: &mut Svg, scale: &Scale, moments: &[Moment]) {
    let mut places = BTreeSet::new();
    let mut labels: Vec<(u64, BTreeSet<u8>)> = Vec::new();
    for (ticks, number) in refusals(moments) {
        let x = scale.x(ticks);
        places.insert(x);
        match labels.last_mut() {
            Some((first, numbers)) if x < *first + room(numbers) => {
                numbers.insert(number);
            }
            _ => labels.push((x, BTreeSet::from([number]))),
        }
    }
    let triangle = |x: &u64| format!("M{} {}l-3 8h6z", x, REFUSED.y);
    let triangles: String = places.iter().map(triangle).collect();
    svg.path(&triangles, "fill=\"#b00\"");
    for (x, numbers) in labels {
        let (x, y) = (x - 3, REFUSED.bottom());
        svg.text(x, y, NORMAL, Anchor::Start, &listed(&numbers));
    }
}

/// How wide numbers are, with a space after them.
fn room(numbers: &BTreeSet<u8>) -> u64 {
    text_width(&listed(numbers), NORMAL) + NORMAL
}

/// The numbers in order, with 1-3 for 1, 2, 3.
fn listed(numbers: &BTreeSet<u8>) -> String {
    let numbers: Vec<u8> = numbers.iter().copied().collect();
    let mut list = String::new();
    for (index, number) in numbers.iter().enumerate() {
        let follows = index > 0 && numbers[index - 1] + 1 == *number;
        let goes_on = numbers.get(index + 1) == Some(&(number + 1));
        if follows && goes_on {
            continue;
        }
        list += match index {
            0 => "",
            _ if follows => "-",
            _ => ",",
        };
        list += &number.to_string();
    }
    list
}

/// The times of the changes, above the rows, each with a line down through
/// them. From the right to the left: each takes the lowest level that is free,
/// or none, and its line takes the place in the levels below.
pub fn change_times(svg: &mut Svg, scale: &Scale, changes: &[u64]) {
    const GAP: u64 = 3;
    let mut free = TIME_LEVELS.map(|_| WIDTH);
    let mut lines = String::new();
    for &ticks in changes.iter().rev() {
        let (x, time) = (scale.x(ticks), seconds(ticks));
        let end = x + 2 * GAP + text_width(&time, SMALL);
        if let Some(level) = free.iter().position(|&free| end <= free) {
            free[..=level].fill(x);
            let y = TIME_LEVELS[level];
            svg.text(x + GAP, y, SMALL, Anchor::Start, &time);
            lines += &format!("M{} {}V{}", x, y - SMALL + 2, LINES_END);
        }
    }
    svg.path(&lines, CHANGE_LINE);
}

/// The calls, each a line through the rows.
pub fn calls(svg: &mut Svg, scale: &Scale, moments: &[Moment]) {
    let places = calls_of(moments).into_iter();
    let places: BTreeSet<u64> = places.map(|(ticks, _)| scale.x(ticks)).collect();
    let line = |x: &u64| format!("M{} {}V{}", x, SELECTED.y, LINES_END);
    let lines: String = places.iter().map(line).collect();
    svg.path(&lines, CALL_LINE);
}

/// The cuts, over all rows.
pub fn cuts(svg: &mut Svg, scale: &Scale) {
    const TEETH: u64 = 13;
    let rows = Row {
        y: SELECTED.y - 4,
        height: AXIS_Y + 8 - SELECTED.y,
    };
    for (left, ticks) in scale.cuts() {
        let right = left + CUT_WIDTH;
        svg.areas([rows.area(left + 1, right - 1)], "fill=\"#fff\"");
        let tooth = rows.height / (2 * TEETH);
        let edge = |x: u64| {
            let teeth = format!("l3 {0}l-3 {0}", tooth).repeat(TEETH as usize);
            format!("M{} {}{}", x, rows.y, teeth)
        };
        let edges = edge(left) + &edge(right - 3);
        svg.path(&edges, "fill=\"none\" stroke=\"#666\"");
        let text = format!("{} s without a change left out", seconds(ticks));
        svg.upward_text(left + CUT_WIDTH / 2, rows.middle(), SMALL, &text);
    }
}
