//! A shorter list with a difference: the events, calls and tables of a list are
//! left out, or made plainer, as long as the difference stays.

use crate::coverage::Coverage;
use crate::device::Device;
use crate::difference::{Mismatch, Name};
use crate::list::List;
use crate::pair::Pair;
use crate::run;
use crate::sent::{Sent, PLAINER_FORMS};
use model::Unit;
use shared::leave_out::{leave_out, Budget};
use shared::runs::{runs, Run};

/// The events sent again in all, after which the list is taken as it is.
const EVENTS_AT_MOST: usize = 60_000_000;

pub struct Shrink<'a, D> {
    make: &'a D,
    pub events: Vec<Sent>,
    pub mismatch: Mismatch,
    budget: Budget,
}

impl<D: Device> Shrink<'_, D> {
    /// A short list that shows a difference of such a device; none if the
    /// named list shows none.
    pub fn of(make: &D, name: Name) -> Option<Shrink<'_, D>> {
        let mut events = record(name);
        let mismatch = cut_to_difference(make, &mut events)?;
        let mut shrink = Shrink {
            make,
            events,
            mismatch,
            budget: Budget(EVENTS_AT_MOST),
        };
        shrink.leave_out();
        shrink.make_plainer();
        Some(shrink)
    }

    fn leave_out(&mut self) {
        let (make, mismatch) = (self.make, &mut self.mismatch);
        leave_out(
            &mut self.events,
            &mut self.budget,
            |events| match cut_to_difference(make, events) {
                Some(found) => {
                    *mismatch = found;
                    true
                }
                None => false,
            },
        );
    }

    /// Tries the plainer forms of each event, call and table, until none is
    /// left that can take its place: what one form needs, another may give.
    fn make_plainer(&mut self) {
        let mut changed = true;
        while changed {
            changed = false;
            for form in 0..PLAINER_FORMS {
                changed |= self.try_form(form);
            }
        }
    }

    /// Tries one of the plainer forms of each: whether one has taken its place.
    fn try_form(&mut self, form: usize) -> bool {
        let (mut changed, mut index) = (false, 0);
        while index < self.events.len() {
            if let Some(&plainer) = self.events[index].plainer().get(form) {
                changed |= self.replace(index, plainer);
            }
            index += 1;
        }
        changed
    }

    /// Puts another in the place of one, if the difference stays: whether it
    /// has.
    fn replace(&mut self, index: usize, other: Sent) -> bool {
        let mut events = self.events.clone();
        events[index] = other;
        if events == self.events || !self.budget.spend(events.len()) {
            return false;
        }
        match cut_to_difference(self.make, &mut events) {
            Some(found) => {
                self.events = events;
                self.mismatch = found;
                true
            }
            None => false,
        }
    }

    /// The events, one line for each run of like ones.
    pub fn lines(&self) -> Vec<String> {
        let runs = runs(&self.events, |one, other| one == other).into_iter();
        let line = |run: Run| format!("{:>7} x {}", run.count(), self.events[run.first]);
        runs.map(line).collect()
    }
}

/// The events of a list; they do not depend on the device.
fn record(name: Name) -> Vec<Sent> {
    let mut coverage = Coverage::empty();
    let make = Unit::fresh();
    let mut list = List::fresh(&make, name, &mut coverage);
    list.keep_record();
    run::play(&mut list).expect("the model does not differ from itself");
    list.into_record()
}

/// The difference that the events show, if one; what is sent after it is cut
/// off.
fn cut_to_difference<D: Device>(make: &D, events: &mut Vec<Sent>) -> Option<Mismatch> {
    let mut pair = Pair::fresh(make);
    for (index, &sent) in events.iter().enumerate() {
        let outcome = pair.send(sent).and_then(|_| pair.read_map());
        if let Err(mismatch) = outcome {
            events.truncate(index + 1);
            return Some(mismatch);
        }
    }
    pair.read_all().err()
}
