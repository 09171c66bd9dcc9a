//! What is told about a difference: where it was found, and both answers, or
//! what is not so of Ready.

use crate::sent::Sent;
use std::fmt;

/// How the device's answer differs from the model's.
#[derive(Clone, Copy, Debug, PartialEq, Eq)]
pub enum Mismatch {
    Refusal {
        model: u8,
        device: u8,
    },
    Read {
        address: u8,
        model: (u8, u8),
        device: (u8, u8),
    },
    /// A refused event, call or table changed the state of the one named.
    Changed {
        name: &'static str,
    },
    /// Ready does not stand after an event after which it stands under the old
    /// rules.
    LessReady,
    /// Ready ended by something else than command 3.
    ReadyEnded,
}

impl fmt::Display for Mismatch {
    fn fmt(&self, f: &mut fmt::Formatter) -> fmt::Result {
        match *self {
            Mismatch::Refusal { model, device } => {
                write!(f, "refusal: the model {}, the device {}", model, device)
            }
            Mismatch::Read {
                address,
                model,
                device,
            } => write!(
                f,
                "read {:#04x}: the model refusal {} byte {:#04x}, the device refusal {} byte {:#04x}",
                address, model.0, model.1, device.0, device.1
            ),
            Mismatch::Changed { name } => {
                write!(f, "what was refused changed the state of the {}", name)
            }
            Mismatch::LessReady => {
                write!(f, "the device is not Ready; under the old rules it is")
            }
            Mismatch::ReadyEnded => {
                write!(f, "Ready ended on the device, and not by command 3")
            }
        }
    }
}

/// A list's name: its seed, and whether it is one with a long Holdover.
#[derive(Clone, Copy, Debug, PartialEq, Eq)]
pub struct Name {
    pub seed: u64,
    pub long: bool,
}

impl Name {
    /// The program's arguments for this list.
    pub fn arguments(self) -> Vec<String> {
        let mut arguments = vec!["--list".to_string(), self.seed.to_string()];
        if self.long {
            arguments.push("--long".to_string());
        }
        arguments
    }
}

#[derive(Clone, Debug, PartialEq, Eq)]
pub struct Difference {
    pub name: Name,
    /// The event, call or table after which it showed, and its index from 0;
    /// none if the fresh units already differ.
    pub last: Option<(u64, Sent)>,
    pub mismatch: Mismatch,
}

impl fmt::Display for Difference {
    fn fmt(&self, f: &mut fmt::Formatter) -> fmt::Result {
        writeln!(f, "DIFFERENCE in the list of seed {}", self.name.seed)?;
        match self.last {
            Some((index, sent)) => writeln!(f, "  after event {}: {}", index, sent)?,
            None => writeln!(f, "  before the first event")?,
        }
        write!(f, "  {}", self.mismatch)
    }
}
