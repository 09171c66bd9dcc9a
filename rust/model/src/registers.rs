//! The register map: which address holds what, and the settings that the
//! writable registers keep.

use crate::refusal::Refusal;

/// "27 bytes, one for each register", document 02's #105.
pub const REGISTERS: usize = 27;

/// "reject − qualification would be under 6" is refused.
const LEAST_GAP: u8 = 6;

/// What an address of the map holds.
#[derive(Clone, Copy, Debug, PartialEq, Eq)]
pub enum Register {
    /// Priority and revertive bit of an input 1 to 8.
    Input(u8),
    FreeRun,
    Policy,
    Command,
    Hours,
    Control,
    OpMode,
    Mask,
    Delay,
    Reject,
    Qualification,
    QualifiedMask,
    AvailableMask,
    StateAndSelected,
    Flags,
    /// A byte of the history's value, 0 the lowest.
    Value(u8),
    AvailableCount,
}

impl Register {
    /// The register at an address; none for an "address not in the map".
    pub fn at(address: u8) -> Option<Register> {
        match address {
            0x1c..=0x23 => Some(Register::Input(address - 0x1c + 1)),
            0x24 => Some(Register::FreeRun),
            0x25 => Some(Register::Policy),
            0x26 => Some(Register::Command),
            0x27 => Some(Register::Hours),
            0x40 => Some(Register::Control),
            0x41 => Some(Register::OpMode),
            0x42 => Some(Register::Mask),
            0x43 => Some(Register::Delay),
            0x44 => Some(Register::Reject),
            0x45 => Some(Register::Qualification),
            0x46 => Some(Register::QualifiedMask),
            0x47 => Some(Register::AvailableMask),
            0x48 => Some(Register::StateAndSelected),
            0x49 => Some(Register::Flags),
            0x4a..=0x4d => Some(Register::Value(address - 0x4a)),
            0x4e => Some(Register::AvailableCount),
            _ => None,
        }
    }

    /// The column "Largest"; none for a register that is read only.
    pub fn largest(self) -> Option<u8> {
        match self {
            Register::Input(_) | Register::Mask | Register::Delay => Some(255),
            Register::FreeRun => Some(31),
            Register::Policy | Register::Control => Some(1),
            Register::Command => Some(3),
            Register::OpMode => Some(9),
            Register::Reject | Register::Qualification => Some(127),
            Register::Hours
            | Register::QualifiedMask
            | Register::AvailableMask
            | Register::StateAndSelected
            | Register::Flags
            | Register::Value(_)
            | Register::AvailableCount => None,
        }
    }
}

/// The bytes of the writable registers.
#[derive(Clone, Copy, Debug, PartialEq, Eq)]
pub struct Settings {
    /// 0x1c to 0x23, "inputs 1 to 8: bit 3 revertive, bits 2-0 priority".
    pub inputs: [u8; 8],
    /// 0x24, "Free Run: bit 4 enabled, bits 3-0 as above".
    pub free_run: u8,
    pub policy: u8,
    /// The last accepted command.
    pub command: u8,
    /// "0 manual, 1 automatic"
    pub control: u8,
    pub op_mode: u8,
    pub mask: u8,
    /// In minutes.
    pub delay: u8,
    pub reject: u8,
    pub qualification: u8,
}

impl Settings {
    /// The column "Fresh".
    pub fn fresh() -> Settings {
        Settings {
            inputs: [0; 8],
            free_run: 0,
            policy: 0,
            command: 0,
            control: 0,
            op_mode: 0,
            mask: 255,
            delay: 0,
            reject: 31,
            qualification: 25,
        }
    }

    /// The register that a write is for, and the settings after it; or the
    /// first of 1 to 4 that holds.
    pub(crate) fn written(self, address: u8, value: u8) -> Result<(Register, Settings), Refusal> {
        let register = Register::at(address).ok_or(Refusal::NotInTheMap)?;
        let largest = register.largest().ok_or(Refusal::ReadOnly)?;
        if value > largest {
            return Err(Refusal::AboveLargest);
        }
        let settings = self.with(register, value);
        // Only a write of one of the two limits can bring them too close.
        if settings.limits_too_close() {
            return Err(Refusal::LimitsTooClose);
        }
        Ok((register, settings))
    }

    /// The settings with one writable register replaced; the others have none
    /// here to replace.
    pub fn with(mut self, register: Register, value: u8) -> Settings {
        match register {
            // "bits 7-4 ignored, read 0"
            Register::Input(input) => self.inputs[usize::from(input) - 1] = value & 0x0f,
            Register::FreeRun => self.free_run = value,
            Register::Policy => self.policy = value,
            Register::Command => self.command = value,
            Register::Control => self.control = value,
            Register::OpMode => self.op_mode = value,
            Register::Mask => self.mask = value,
            Register::Delay => self.delay = value,
            Register::Reject => self.reject = value,
            Register::Qualification => self.qualification = value,
            _ => {}
        }
        self
    }

    /// "reject − qualification would be under 6"
    pub(crate) fn limits_too_close(&self) -> bool {
        self.reject < self.qualification + LEAST_GAP
    }

    pub fn automatic(&self) -> bool {
        self.control == 1
    }

    /// "a set bit = usable; in every mask bit i−1 is input i"
    pub fn unmasked(&self, input: u8) -> bool {
        self.mask & (1 << (input - 1)) != 0
    }

    pub fn free_run_enabled(&self) -> bool {
        self.free_run & 0x10 != 0
    }

    /// The priority of candidate 1 to 8, or 9 for Free Run; 0 is best.
    pub fn priority(&self, candidate: u8) -> u8 {
        self.candidate_byte(candidate) & 0x07
    }

    pub fn revertive(&self, candidate: u8) -> bool {
        self.candidate_byte(candidate) & 0x08 != 0
    }

    fn candidate_byte(&self, candidate: u8) -> u8 {
        match candidate {
            1..=8 => self.inputs[usize::from(candidate) - 1],
            _ => self.free_run,
        }
    }
}
