//! The run over time as a picture: `picture`.

mod axis;
mod busy_hours;
mod fills;
mod layout;
mod legend;
mod marks;
mod rows;
mod scale;
mod stretches;
mod svg;

use crate::records::{selected_name, state_name};
use crate::stepped::Moment;
use crate::time::seconds;
use fills::{selected_fill, state_fill};
use layout::{Row, AXIS_LABELS_Y, READY, REFUSED, SELECTED, STATE, SUMMARY_Y, TITLE_Y};
use scale::{Scale, LEFT, RIGHT};
use stretches::{calls, changes, end, refusals, stretches};
use svg::{text_width, Anchor, Svg, NORMAL, TITLE};

/// The picture of a run, an SVG. The same run has the same picture.
pub fn picture(title: &str, moments: &[Moment]) -> String {
    let changes = changes(moments);
    let scale = scale(&changes, moments);
    let mut svg = Svg::default();
    busy_hours::draw(&mut svg, &scale, moments);
    heading(&mut svg, title, moments);
    axis::draw(&mut svg, &scale);
    marks::change_times(&mut svg, &scale, &changes);
    row_names(&mut svg);
    all_rows(&mut svg, &scale, moments);
    marks::calls(&mut svg, &scale, moments);
    marks::cuts(&mut svg, &scale);
    let height = legend::draw(&mut svg, moments);
    svg.finished(title, layout::WIDTH, height)
}

/// The scale for the changes, refusals and calls, from 0 to the end.
fn scale(changes: &[u64], moments: &[Moment]) -> Scale {
    let mut places = vec![0, end(moments)];
    places.extend(changes);
    places.extend(refusals(moments).iter().map(|&(ticks, _)| ticks));
    places.extend(calls(moments).iter().map(|&(ticks, _)| ticks));
    places.sort_unstable();
    places.dedup();
    Scale::of(&places)
}

fn heading(svg: &mut Svg, title: &str, moments: &[Moment]) {
    svg.text(LEFT, TITLE_Y, TITLE, Anchor::Start, &fitting(title));
    let last = moments.last().map_or(0, |moment| moment.ticks);
    let refused = match refusals(moments).len() {
        0 => "none refused".to_string(),
        count => format!("{} refused", count),
    };
    let records = moments.len() - 1;
    let summary = format!("{} records, {} s, {}", records, seconds(last), refused);
    svg.text(LEFT, SUMMARY_Y, NORMAL, Anchor::Start, &summary);
}

/// As much of a title as the picture is wide.
fn fitting(title: &str) -> String {
    let letters = (RIGHT - LEFT) / text_width("m", TITLE);
    title.chars().take(letters as usize).collect()
}

fn row_names(svg: &mut Svg) {
    let mut name = |y, name: &str| svg.text(LEFT - 10, y, NORMAL, Anchor::End, name);
    let beside = |row: Row| row.middle() + NORMAL / 3;
    name(beside(SELECTED), "selected");
    name(beside(STATE), "state");
    name(beside(READY), "Ready");
    for input in 1..=8 {
        name(beside(layout::input(input)), &format!("input {}", input));
    }
    name(beside(REFUSED), "refused");
    name(AXIS_LABELS_Y, "seconds");
}

fn all_rows(svg: &mut Svg, scale: &Scale, moments: &[Moment]) {
    let selected = stretches(moments, |moment| moment.record.selected());
    rows::band(
        svg,
        scale,
        SELECTED,
        &selected,
        selected_fill,
        selected_name,
    );
    let state = stretches(moments, |moment| moment.record.state_number());
    let name = |number| state_name(number).to_string();
    rows::band(svg, scale, STATE, &state, state_fill, name);
    let ready = stretches(moments, |moment| moment.record.ready());
    rows::named_bars(svg, scale, READY, &ready, "Ready");
    for input in 1..=8 {
        rows::input(svg, scale, moments, input);
    }
    marks::refused(svg, scale, moments);
}
