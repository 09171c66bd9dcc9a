//! The busy hours: a band behind the rows while the ticks are in a window.

use super::layout::BANDS;
use super::scale::Scale;
use super::stretches::{stretches, Stretch};
use super::svg::Svg;
use crate::stepped::Moment;

pub const BAND: &str = "fill=\"#f8e4ee\"";

fn busy(moments: &[Moment]) -> Vec<Stretch<bool>> {
    stretches(moments, |moment| moment.busy)
}

/// Whether there is a band.
pub fn any(moments: &[Moment]) -> bool {
    busy(moments).iter().any(|stretch| stretch.value)
}

pub fn draw(svg: &mut Svg, scale: &Scale, moments: &[Moment]) {
    let spans = scale.spans(&busy(moments));
    let bands = spans.iter().filter(|span| span.value);
    let seen = bands.flat_map(|span| scale.visible(span.left, span.right));
    svg.areas(seen.map(|(left, right)| BANDS.area(left, right)), BAND);
}
