//! Values over time: the stretches in which they stay the same.

use crate::step::Call;
use crate::stepped::Moment;

/// From a tick up to, but not with, another.
#[derive(Clone, Copy, Debug, PartialEq, Eq)]
pub struct Stretch<T> {
    pub from: u64,
    pub to: u64,
    pub value: T,
}

/// Where the picture ends: a tick after the last moment, so that this is seen
/// too.
pub fn end(moments: &[Moment]) -> u64 {
    moments.last().map_or(0, |moment| moment.ticks) + 1
}

/// What a value of the moments is from 0 to the end. One that lasts no time,
/// since another event follows before the next tick, is left out.
pub fn stretches<T: PartialEq>(
    moments: &[Moment],
    value: impl Fn(&Moment) -> T,
) -> Vec<Stretch<T>> {
    let mut stretches: Vec<Stretch<T>> = Vec::new();
    for (index, moment) in moments.iter().enumerate() {
        let next = moments.get(index + 1);
        let (from, to) = (moment.ticks, next.map_or(end(moments), |next| next.ticks));
        let value = value(moment);
        match stretches.last_mut() {
            _ if from == to => {}
            Some(last) if last.value == value => last.to = to,
            _ => stretches.push(Stretch { from, to, value }),
        }
    }
    stretches
}

/// The refusals: tick and number.
pub fn refusals(moments: &[Moment]) -> Vec<(u64, u8)> {
    let refused = moments.iter().filter(|moment| moment.record.refusal != 0);
    refused
        .map(|moment| (moment.ticks, moment.record.refusal))
        .collect()
}

/// The calls: tick and call.
pub fn calls(moments: &[Moment]) -> Vec<(u64, &Call)> {
    let moments = moments.iter();
    moments
        .filter_map(|moment| Some((moment.ticks, moment.call.as_ref()?)))
        .collect()
}

/// The ticks at which something that is drawn over time changes.
pub fn changes(moments: &[Moment]) -> Vec<u64> {
    let drawn = |moment: &Moment| {
        let record = moment.record;
        (record.state, record.ready(), moment.available, moment.busy)
    };
    let stretches = stretches(moments, drawn);
    stretches
        .iter()
        .skip(1)
        .map(|stretch| stretch.from)
        .collect()
}
