//! What is run: a run sheet, or the steps of a text with a table or with calls,
//! for which a sheet has no place.

use crate::fresh::fresh;
use crate::make::Fault;
use crate::records::{run, Timed};
use crate::sheet::Sheet;
use crate::step::Step;
use crate::stepped::{moments, stepped, Moment};

#[derive(Clone, Debug, PartialEq, Eq)]
pub enum Script {
    Sheet(Sheet),
    Host(Host),
}

/// The steps that a host takes, the settings as writes in front.
#[derive(Clone, Debug, PartialEq, Eq)]
pub struct Host {
    /// The values that the unit is made from before the first step: a table
    /// that loads.
    pub table: Option<Vec<u8>>,
    pub steps: Vec<Step>,
    /// Why it is no sheet, with the line of the table or of the first call.
    pub no_sheet: Fault,
}

impl Host {
    /// The unit as it is made, and then after each step.
    pub fn moments(&self) -> Vec<Moment> {
        stepped(fresh(self.table.as_deref()), self.steps.iter().cloned())
    }
}

impl Script {
    /// The sheet, or the table or call that it has no place for.
    pub fn into_sheet(self) -> Result<Sheet, Fault> {
        match self {
            Script::Sheet(sheet) => Ok(sheet),
            Script::Host(host) => Err(host.no_sheet),
        }
    }

    /// The records: a sheet's by the run of the sheet, all others by the host's
    /// functions, step by step.
    pub fn records(&self) -> Vec<Timed> {
        match self {
            Script::Sheet(sheet) => run(sheet),
            Script::Host(host) => timed(&host.moments()),
        }
    }

    /// The fresh unit, and then the unit after each step; or, of a sheet, the
    /// first record that the stepped unit does not agree with.
    pub fn moments(&self) -> Result<Vec<Moment>, String> {
        match self {
            Script::Sheet(sheet) => moments(sheet, &run(sheet)),
            Script::Host(host) => Ok(host.moments()),
        }
    }
}

/// The records of all steps: the first moment is that of the fresh unit.
pub fn timed(moments: &[Moment]) -> Vec<Timed> {
    let steps = moments.iter().skip(1);
    steps
        .map(|&Moment { ticks, record, .. }| Timed { ticks, record })
        .collect()
}
