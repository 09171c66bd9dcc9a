//! The time axis: marks at round seconds.

use super::layout::{AXIS_LABELS_Y, AXIS_Y, LINES_END, SELECTED};
use super::scale::{Piece, Scale, LEFT, RIGHT};
use super::svg::{text_width, Anchor, Svg, SMALL};
use crate::time::{seconds_of, TICK_MS};

/// How far marks are apart at least.
const APART: u64 = 70;

/// The axis with its marks, and a faint line through the rows at each.
pub fn draw(svg: &mut Svg, scale: &Scale) {
    let step = round_step(scale.ms(APART));
    let mut lines = String::new();
    let mut axis = format!("M{} {}H{}", LEFT, AXIS_Y, RIGHT);
    let mut taken = 0;
    for (x, ms) in marks(scale, step) {
        lines += &format!("M{} {}V{}", x, SELECTED.y, LINES_END);
        axis += &format!("M{} {}v5", x, AXIS_Y);
        let label = seconds_of(ms);
        let label = label.trim_end_matches('0').trim_end_matches('.');
        let half = text_width(label, SMALL) / 2;
        if x > taken + half {
            taken = x + half + SMALL;
            svg.text(x, AXIS_LABELS_Y, SMALL, Anchor::Middle, label);
        }
    }
    svg.path(&lines, "fill=\"none\" stroke=\"#e6e6e6\"");
    svg.path(&axis, "fill=\"none\" stroke=\"#333\"");
}

/// Where the multiples of the step are, and how many milliseconds.
fn marks(scale: &Scale, step: u64) -> Vec<(u64, u64)> {
    let mut marks = Vec::new();
    for &piece in scale.pieces() {
        let first = (piece.from * TICK_MS + step - 1) / step;
        let last = piece.to * TICK_MS / step;
        let times = (first..=last).map(|index| index * step);
        marks.extend(times.map(|ms| (place(scale, piece, ms), ms)));
    }
    marks
}

fn place(scale: &Scale, piece: Piece, ms: u64) -> u64 {
    piece.left + scale.width(ms - piece.from * TICK_MS) / TICK_MS
}

/// The least of 1, 2, 5, 10, 20, 50 and so on that is not below this.
fn round_step(least: u64) -> u64 {
    let powers = (0..).map(|power| 10_u64.pow(power));
    let mut steps = powers.flat_map(|power| [power, 2 * power, 5 * power]);
    let step = steps.find(|&step| step >= least);
    step.expect("a step as large as any")
}
