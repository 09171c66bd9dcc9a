//! What the fills, bars and lines mean, the reasons of the refusals that are
//! marked, and the calls.

use super::busy_hours::{self, BAND};
use super::fills::state_fill;
use super::layout::{Row, LEGEND_Y, NOTES_Y, NOTE_HEIGHT};
use super::marks::CALL_LINE;
use super::rows::{selected_line, BAR, SELECTED_LINE};
use super::scale::{LEFT, RIGHT};
use super::stretches::{calls, refusals};
use super::svg::{text_width, Anchor, Svg, NORMAL};
use crate::records::state_name;
use crate::stepped::Moment;
use crate::time::seconds;
use controller::{reason, STATES};
use std::collections::BTreeSet;

const SWATCH: u64 = 18;
const GAP: u64 = 6;
/// So many calls are told; of more, how many they are.
const MOST_CALLS: usize = 12;
/// So many lines a note has; of a longer one they are the first.
const MOST_LINES: usize = 2;

/// Draws the legend and says how high the picture is with it.
pub fn draw(svg: &mut Svg, moments: &[Moment]) -> u64 {
    let row = Row {
        y: LEGEND_Y - 10,
        height: 11,
    };
    let mut x = LEFT;
    for number in 0..STATES.len() as u8 {
        let style = format!("fill=\"{}\" stroke=\"#333\"", state_fill(number));
        svg.areas([row.area(x, x + SWATCH)], &style);
        x = name(svg, x, state_name(number));
    }
    svg.areas([row.area(x, x + SWATCH)], BAR);
    x = name(svg, x, "available");
    svg.areas([selected_line(row).area(x, x + SWATCH)], SELECTED_LINE);
    x = name(svg, x, "selected");
    if !calls(moments).is_empty() {
        let line = format!("M{} {}V{}", x + SWATCH / 2, row.y, row.bottom());
        svg.path(&line, CALL_LINE);
        x = name(svg, x, "call");
    }
    if busy_hours::any(moments) {
        svg.areas([row.area(x, x + SWATCH)], BAND);
        name(svg, x, "busy hours");
    }
    notes(svg, moments)
}

/// The name of a swatch; the place of the next.
fn name(svg: &mut Svg, x: u64, name: &str) -> u64 {
    let x = x + SWATCH + GAP;
    svg.text(x, LEGEND_Y, NORMAL, Anchor::Start, name);
    x + text_width(name, NORMAL) + 2 * GAP
}

fn notes(svg: &mut Svg, moments: &[Moment]) -> u64 {
    let refusals = refusals(moments);
    let numbers: BTreeSet<u8> = refusals.iter().map(|&(_, number)| number).collect();
    let mut y = NOTES_Y;
    let mut note = |note: String| {
        for line in lines(&note) {
            svg.text(LEFT, y, NORMAL, Anchor::Start, line.trim_end());
            y += NOTE_HEIGHT;
        }
    };
    for number in numbers {
        note(format!("refused {}: {}", number, reason(number)));
    }
    let calls = calls(moments);
    for (ticks, call) in calls.iter().take(MOST_CALLS) {
        note(format!("call at {} s: {}", seconds(*ticks), call));
    }
    if calls.len() > MOST_CALLS {
        note(format!("and {} calls more", calls.len() - MOST_CALLS));
    }
    y
}

/// A note in lines as wide as the rows; commas part it.
fn lines(note: &str) -> Vec<String> {
    let mut lines = vec![String::new()];
    for part in note.split_inclusive(", ") {
        let last = lines.len() - 1;
        let longer = format!("{}{}", lines[last], part);
        if text_width(longer.trim_end(), NORMAL) <= RIGHT - LEFT || lines[last].is_empty() {
            lines[last] = longer;
        } else if lines.len() < MOST_LINES {
            lines.push(part.to_string());
        } else {
            lines[last] += "...";
            break;
        }
    }
    lines
}
