//! What is compared: anything that takes events, calls and tables and reads as
//! the controller does.

use crate::fields::Fields;
use crate::sent::Sent;
use crate::table::Table;
use model::Call;

/// `Clone` and `PartialEq` are there to see that a refusal leaves the whole
/// state, field for field, as an earlier copy has it.
pub trait Device: Clone + PartialEq {
    fn name(&self) -> &'static str;

    /// A fresh device of the same make.
    fn fresh(&self) -> Self;

    /// The refusal's number, 0 if accepted, 12 if the fields are no event.
    fn event(&mut self, kind: u8, a: u8, b: u8, word: i32) -> u8;

    /// The refusal's number, 0 if accepted.
    fn call(&mut self, call: Call) -> u8;

    /// The refusal's number, 0 if the device is made anew from the table.
    fn load(&mut self, table: Table) -> u8;

    /// The refusal's number and the byte.
    fn read(&self, address: u8) -> (u8, u8);

    /// The refusal's number, 0 if accepted.
    fn take(&mut self, sent: Sent) -> u8 {
        match sent {
            Sent::Fields(Fields { kind, a, b, word }) => self.event(kind, a, b, word),
            Sent::Call(call) => self.call(call),
            Sent::Load(table) => self.load(table),
        }
    }
}

impl Device for model::Unit {
    fn name(&self) -> &'static str {
        "model"
    }

    fn fresh(&self) -> Self {
        model::Unit::fresh()
    }

    fn event(&mut self, kind: u8, a: u8, b: u8, word: i32) -> u8 {
        self.event_fields(kind, a, b, word)
    }

    fn call(&mut self, call: Call) -> u8 {
        model::Unit::call(self, &call)
    }

    fn load(&mut self, table: Table) -> u8 {
        model::Unit::load(self, &table.bytes())
    }

    fn read(&self, address: u8) -> (u8, u8) {
        model::Unit::read(self, address)
    }
}

#[cfg(feature = "controller")]
impl Device for controller::Unit {
    fn name(&self) -> &'static str {
        "controller"
    }

    fn fresh(&self) -> Self {
        controller::Unit::fresh()
    }

    fn event(&mut self, kind: u8, a: u8, b: u8, word: i32) -> u8 {
        controller::Unit::event(self, kind, a, b, word)
    }

    fn call(&mut self, call: Call) -> u8 {
        match call {
            Call::SetBucket { set, numbers } => self.set_bucket(
                set,
                numbers.size,
                numbers.set_level,
                numbers.clear_level,
                numbers.decay,
            ),
            Call::AssignBucket { input, set } => self.assign_bucket(input, set),
            Call::SetWeek { place } => self.set_week(place),
            Call::SetWindows { count, numbers } => self.set_windows(count, &numbers),
        }
    }

    fn load(&mut self, table: Table) -> u8 {
        controller::Unit::load(self, &table.bytes())
    }

    fn read(&self, address: u8) -> (u8, u8) {
        controller::Unit::read(self, address)
    }
}
