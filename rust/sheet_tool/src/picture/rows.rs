//! The rows of the picture: bands of named stretches, and bars.

use super::layout::{self, Row};
use super::scale::{Scale, Span, LEFT, RIGHT};
use super::stretches::{stretches, Stretch};
use super::svg::{text_width, Anchor, Svg, NORMAL, SMALL};
use crate::stepped::Moment;
use std::collections::BTreeSet;

/// The least width of an upward text.
const UPWARD: u64 = 11;

pub const BAR: &str = "fill=\"#c4c4c4\" stroke=\"#444\" stroke-width=\"0.7\"";
pub const SELECTED_LINE: &str = "fill=\"#000\"";
const EDGE: &str = "stroke=\"#333\" stroke-width=\"0.7\"";
const BASE_LINE: &str = "fill=\"none\" stroke=\"#aaa\" stroke-width=\"0.7\"";

/// A row in which every stretch is an area of its own, with its name where
/// there is room.
pub fn band(
    svg: &mut Svg,
    scale: &Scale,
    row: Row,
    stretches: &[Stretch<u8>],
    fill: impl Fn(u8) -> &'static str,
    name: impl Fn(u8) -> String,
) {
    let spans = scale.spans(stretches);
    let values: BTreeSet<u8> = spans.iter().map(|span| span.value).collect();
    for value in values {
        let same = spans.iter().filter(|span| span.value == value);
        let areas = same.map(|span| row.area(span.left, span.right));
        svg.areas(areas, &format!("fill=\"{}\" {}", fill(value), EDGE));
    }
    for span in &spans {
        label(svg, scale, row, span, &name(span.value));
    }
}

/// A name in each part of its area that is seen: across where it fits, else
/// upwards, else not at all.
fn label<T>(svg: &mut Svg, scale: &Scale, row: Row, span: &Span<T>, name: &str) {
    const MARGIN: u64 = 4;
    for (left, right) in scale.visible(span.left, span.right) {
        let width = right - left;
        let middle = left + width / 2;
        if width >= text_width(name, NORMAL) + MARGIN {
            let baseline = row.middle() + NORMAL / 3;
            svg.text(middle, baseline, NORMAL, Anchor::Middle, name);
        } else if width >= UPWARD && row.height >= text_width(name, SMALL) {
            svg.upward_text(middle, row.middle(), SMALL, name);
        }
    }
}

/// A row with a bar where something holds, and a line where it does not.
fn bars(svg: &mut Svg, scale: &Scale, row: Row, stretches: &[Stretch<bool>]) -> Vec<Span<bool>> {
    let base_line = format!("M{} {}H{}", LEFT, row.bottom(), RIGHT);
    svg.path(&base_line, BASE_LINE);
    let mut spans = scale.spans(stretches);
    spans.retain(|span| span.value);
    let areas = spans.iter().map(|span| row.area(span.left, span.right));
    svg.areas(areas, BAR);
    spans
}

/// Bars with a name in them.
pub fn named_bars(svg: &mut Svg, scale: &Scale, row: Row, stretches: &[Stretch<bool>], name: &str) {
    for span in bars(svg, scale, row, stretches) {
        label(svg, scale, row, &span, name);
    }
}

/// The row of an input: a bar while it is available, a line in it while it is
/// selected.
pub fn input(svg: &mut Svg, scale: &Scale, moments: &[Moment], number: u8) {
    let row = layout::input(number);
    let available = |moment: &Moment| moment.available >> (number - 1) & 1 == 1;
    bars(svg, scale, row, &stretches(moments, available));
    let selected = |moment: &Moment| moment.record.selected() == number;
    let spans = scale.spans(&stretches(moments, selected));
    let selected = spans.iter().filter(|span| span.value);
    let line = selected_line(row);
    svg.areas(
        selected.map(|span| line.area(span.left, span.right)),
        SELECTED_LINE,
    );
}

/// The line of the selected input, in the middle of its bar.
pub fn selected_line(row: Row) -> Row {
    const HEIGHT: u64 = 5;
    let y = row.y + (row.height - HEIGHT) / 2;
    Row { y, height: HEIGHT }
}
