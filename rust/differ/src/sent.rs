//! What is sent to a unit: the fields of an event, a call of #104 or #107, or a
//! table of #105 to be loaded.

use crate::fields::Fields;
use crate::table::Table;
use crate::windows::{plainer_windows, show_windows};
use model::{BucketSet, Call, Event, REGISTERS};
use std::fmt;

/// So many plainer forms there are at most.
pub const PLAINER_FORMS: usize = 2 + REGISTERS;

#[derive(Clone, Copy, Debug, PartialEq, Eq)]
pub enum Sent {
    Fields(Fields),
    Call(Call),
    Load(Table),
}

impl Sent {
    pub fn fields(&self) -> Option<Fields> {
        match *self {
            Sent::Fields(fields) => Some(fields),
            Sent::Call(_) | Sent::Load(_) => None,
        }
    }

    /// None for a call and a table, and for fields that are no event.
    pub fn event(&self) -> Option<Event> {
        self.fields()?.event()
    }

    pub fn call(&self) -> Option<Call> {
        match *self {
            Sent::Call(call) => Some(call),
            Sent::Fields(_) | Sent::Load(_) => None,
        }
    }

    pub fn table(&self) -> Option<Table> {
        match *self {
            Sent::Load(table) => Some(table),
            Sent::Fields(_) | Sent::Call(_) => None,
        }
    }

    /// The same with one of its parts made plainer.
    pub fn plainer(self) -> Vec<Sent> {
        match self {
            Sent::Fields(fields) => vec![
                Fields { a: 0, ..fields }.into(),
                Fields { b: 0, ..fields }.into(),
                Fields { word: 0, ..fields }.into(),
            ],
            Sent::Call(Call::SetBucket { set, numbers }) => vec![
                Call::SetBucket { set: 0, numbers }.into(),
                Call::SetBucket {
                    set,
                    numbers: BucketSet::FRESH,
                }
                .into(),
            ],
            Sent::Call(Call::AssignBucket { input, set }) => vec![
                Call::AssignBucket { input: 1, set }.into(),
                Call::AssignBucket { input, set: 0 }.into(),
            ],
            Sent::Call(Call::SetWeek { .. }) => vec![Call::SetWeek { place: 0 }.into()],
            Sent::Call(Call::SetWindows { count, numbers }) => plainer_windows(count, numbers)
                .into_iter()
                .map(Sent::Call)
                .collect(),
            Sent::Load(table) => table.plainer().into_iter().map(Sent::Load).collect(),
        }
    }
}

impl From<Fields> for Sent {
    fn from(fields: Fields) -> Sent {
        Sent::Fields(fields)
    }
}

impl From<Event> for Sent {
    fn from(event: Event) -> Sent {
        Sent::Fields(event.into())
    }
}

impl From<Call> for Sent {
    fn from(call: Call) -> Sent {
        Sent::Call(call)
    }
}

impl From<Table> for Sent {
    fn from(table: Table) -> Sent {
        Sent::Load(table)
    }
}

impl fmt::Display for Sent {
    fn fmt(&self, f: &mut fmt::Formatter) -> fmt::Result {
        match *self {
            Sent::Fields(fields) => fields.fmt(f),
            Sent::Call(Call::SetBucket { set, numbers }) => write!(
                f,
                "set bucket set {} size {} set level {} clear level {} decay {}",
                set, numbers.size, numbers.set_level, numbers.clear_level, numbers.decay
            ),
            Sent::Call(Call::AssignBucket { input, set }) => {
                write!(f, "assign bucket input {} set {}", input, set)
            }
            Sent::Call(Call::SetWeek { place }) => write!(f, "set week place {}", place),
            Sent::Call(Call::SetWindows { count, numbers }) => show_windows(f, count, numbers),
            Sent::Load(table) => write!(f, "load {}", table),
        }
    }
}
