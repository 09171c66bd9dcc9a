//! What the unit shows: its registers, byte by byte, and what they are made of.

use crate::history::SwitchRules;
use crate::pll::State;
use crate::refusal::Refusal;
use crate::registers::Register;
use crate::selection::Candidates;
use crate::unit::UnitUnder;

/// "whole hours (28,125 ticks)"
pub const TICKS_PER_HOUR: u64 = 28_125;

impl<R: SwitchRules> UnitUnder<R> {
    /// Reads an address: (0, its byte), or (1, 0) if it is not in the map.
    pub fn read(&self, address: u8) -> (u8, u8) {
        match Register::at(address) {
            Some(register) => (0, self.register(register)),
            None => (Refusal::NotInTheMap.number(), 0),
        }
    }

    fn register(&self, register: Register) -> u8 {
        let settings = &self.settings;
        match register {
            Register::Input(input) => settings.inputs[usize::from(input) - 1],
            Register::FreeRun => settings.free_run,
            Register::Policy => settings.policy,
            Register::Command => settings.command,
            Register::Hours => self.hours(),
            Register::Control => settings.control,
            Register::OpMode => settings.op_mode,
            Register::Mask => settings.mask,
            Register::Delay => settings.delay,
            Register::Reject => settings.reject,
            Register::Qualification => settings.qualification,
            Register::QualifiedMask => self.qualified_mask(),
            Register::AvailableMask => self.available_mask(),
            Register::StateAndSelected => 16 * self.pll.state as u8 + self.selected,
            Register::Flags => self.flags(),
            Register::Value(byte) => self.value().to_le_bytes()[usize::from(byte)],
            Register::AvailableCount => self.available_mask().count_ones() as u8,
        }
    }

    /// "whole hours (28,125 ticks) in Holdover after the entering event, at
    /// most 255, else 0"
    pub fn hours(&self) -> u8 {
        (self.holdover_ticks / TICKS_PER_HOUR).min(255) as u8
    }

    /// "bit 0 alarm (Holdover or Free Run), bit 1 not Locked, bit 2 Ready, bit
    /// 3 backup held"
    fn flags(&self) -> u8 {
        let alarm = matches!(self.pll.state, State::Holdover | State::FreeRun);
        u8::from(alarm)
            + 2 * u8::from(!self.locked())
            + 4 * u8::from(self.ready())
            + 8 * u8::from(self.backup_held())
    }

    /// The history's value; "0 unless Ready".
    pub fn value(&self) -> i32 {
        match self.history.value() {
            Some(value) if self.ready() => value as i32,
            _ => 0,
        }
    }

    pub fn qualified_mask(&self) -> u8 {
        mask_of(|input| self.input(input).qualified())
    }

    pub fn available_mask(&self) -> u8 {
        mask_of(|input| self.available(input))
    }

    /// "available means qualified and unmasked"
    pub fn available(&self, input: u8) -> bool {
        self.candidates().available(input)
    }

    /// The best candidate, 0 if there is none.
    pub fn best(&self) -> u8 {
        self.candidates().best()
    }

    fn candidates(&self) -> Candidates<'_> {
        Candidates::of(&self.settings, &self.inputs)
    }
}

/// "in every mask bit i−1 is input i"
fn mask_of(holds: impl Fn(u8) -> bool) -> u8 {
    (1..=8)
        .filter(|&input| holds(input))
        .map(|input| 1 << (input - 1))
        .sum()
}
