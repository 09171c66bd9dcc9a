//! A run by the host's functions: a unit that takes one step after the other. It
//! also tells the available inputs and the busy hours, which the records do not
//! have.

use crate::records::{Record, Timed};
use crate::sheet::Sheet;
use crate::step::{Call, Step};
use crate::week::is_busy;
use controller::Unit;

/// What is to be seen from a time on, in accepted ticks.
#[derive(Clone, Debug, PartialEq, Eq)]
pub struct Moment {
    pub ticks: u64,
    pub record: Record,
    pub available: u8,
    /// Whether the last tick's place was in a window of the busy hours; before
    /// the first tick, whether that one's will be.
    pub busy: bool,
    /// The call that it comes after, if one.
    pub call: Option<Call>,
}

/// The unit, and then as it is after each step.
pub fn stepped(mut unit: Unit, steps: impl Iterator<Item = Step>) -> Vec<Moment> {
    let mut busy = is_busy(&unit);
    let mut moments = vec![moment(&unit, 0, busy, 0, None)];
    let mut ticks = 0;
    for step in steps {
        let in_window = is_busy(&unit);
        let refusal = step.give(&mut unit);
        let passed = step.ticks(refusal);
        ticks += passed;
        if passed > 0 {
            busy = in_window;
        } else if ticks == 0 {
            busy = is_busy(&unit);
        }
        moments.push(moment(&unit, ticks, busy, refusal, step.call().cloned()));
    }
    moments
}

/// The moments of a sheet; or the first record of its run that the stepped unit
/// does not agree with.
pub fn moments(sheet: &Sheet, records: &[Timed]) -> Result<Vec<Moment>, String> {
    let moments = stepped(Unit::fresh(), sheet.steps().map(Step::Event));
    for (index, (moment, timed)) in moments.iter().skip(1).zip(records).enumerate() {
        if moment.record != timed.record {
            return Err(difference(index, timed.record, moment.record));
        }
    }
    Ok(moments)
}

fn moment(unit: &Unit, ticks: u64, busy: bool, refusal: u8, call: Option<Call>) -> Moment {
    let byte = |address| unit.read(address).1;
    Moment {
        ticks,
        record: Record {
            refusal,
            state: byte(0x48),
            qualified: byte(0x46),
            status: byte(0x49),
        },
        available: byte(0x47),
        busy,
        call,
    }
}

fn difference(index: usize, run: Record, stepped: Record) -> String {
    format!(
        "record {} differs: the run has {:02x?}, the stepped unit {:02x?}",
        index, run, stepped
    )
}
