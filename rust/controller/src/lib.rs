//! The bindings to the real controller, a static library with a C interface.
//! The host owns the unit's state and lends it for each event.
//!
//! The interface is the registers, by `Unit::read`, and the records of a run
//! sheet. The fields of `Unit` are for the eye: they may change from one version
//! to the next. `c/controller.h` says what each holds.

mod words;

pub use words::{reason, FINER_MEASUREMENT, HIT, MEASUREMENT, STATES, TICK, WRITE};

use std::mem::{align_of, size_of, zeroed};

/// How many registers there are.
pub const REGISTERS: usize = 27;

/// The slot of a register in a table and in `Unit::regs`, which have them in
/// address order; None if the address is not in the map.
pub fn register_slot(address: u8) -> Option<usize> {
    let slot = match address {
        0x1c..=0x27 => address - 0x1c,
        0x40..=0x4e => address - 0x40 + 12,
        _ => return None,
    };
    Some(usize::from(slot))
}

/// Structs as the library has them. No byte is in no field, so that two with the
/// same fields have the same bytes.
macro_rules! without_padding {
    ($($(#[$doc:meta])* pub struct $name:ident { $(pub $field:ident: $type:ty,)* })*) => {$(
        $(#[$doc])*
        #[repr(C)]
        #[derive(Clone, Copy, Debug, PartialEq, Eq)]
        pub struct $name {
            $(pub $field: $type,)*
        }

        const _: () = assert!(size_of::<$name>() == 0 $(+ size_of::<$type>())*);
    )*};
}

without_padding! {
    /// What the monitors keep of each input; an alarm is 0 or 1.
    pub struct Monitors {
        pub level: [u16; 8],
        pub decay: [u16; 8],
        pub activity: [u16; 8],
        pub frequency: [u16; 8],
        pub remainder: [u16; 8],
        pub soak: [u16; 8],
    }

    /// The numbers of a bucket set, one word of four bytes; of the decay it is the
    /// last count before the level falls.
    pub struct Set {
        pub size: u8,
        pub set_level: u8,
        pub clear_level: u8,
        pub decay_last: u8,
    }

    /// The four bucket sets, and the set 0 to 3 that each input has.
    pub struct Buckets {
        pub sets: [Set; 4],
        pub assigned: [u16; 8],
    }

    /// The history's open block and counts; `builds` is not 0 while a history
    /// builds.
    pub struct Tally {
        pub open: i64,
        pub filled: u16,
        pub count: u8,
        pub built: u8,
        pub backed: u8,
        pub builds: u8,
        pub last: u8,
        pub command: u8,
    }

    /// The block sums that the tally counts: the first `count` are in use, the
    /// newest first; likewise the first `built` of the building history's, and the
    /// first `backed` of the backup's.
    pub struct History {
        pub sums: [i64; 64],
        pub building: [i64; 64],
        pub backup: [i64; 64],
    }

    /// What is selected, and the reversion wait for another.
    pub struct Choice {
        pub wait: u32,
        pub selected: u32,
        pub awaited: u32,
    }

    /// The PLL's state and runs.
    pub struct Loop {
        pub unlock: u32,
        pub mode: u32,
        pub lock: u32,
    }

    /// The numbers of the unit as a whole; the place is that of the next tick in
    /// the week.
    pub struct Core {
        pub tally: Tally,
        pub choice: Choice,
        pub holding: u32,
        pub place: u32,
        pub pll: Loop,
    }

    /// The whole state of a unit. The windows are the start and end of each in
    /// turn; a pair whose start is not before its end is none. After the registers
    /// are five bytes of 0.
    pub struct Unit {
        pub core: Core,
        pub monitors: Monitors,
        pub buckets: Buckets,
        pub history: History,
        pub windows: [u32; 16],
        pub regs: [u8; 32],
    }
}

const fn laid_out<T>(size: usize, align: usize) -> bool {
    size_of::<T>() == size && align_of::<T>() == align
}

const _: () = {
    assert!(laid_out::<Monitors>(96, 2));
    assert!(laid_out::<Set>(4, 1));
    assert!(laid_out::<Buckets>(32, 2));
    assert!(laid_out::<Tally>(16, 8));
    assert!(laid_out::<History>(1536, 8));
    assert!(laid_out::<Choice>(12, 4));
    assert!(laid_out::<Loop>(12, 4));
    assert!(laid_out::<Core>(48, 8));
    assert!(laid_out::<Unit>(1808, 8));
};

extern "C" {
    fn unit_make(unit: *mut Unit);
    fn unit_event(unit: *mut Unit, kind: u8, a: u8, b: u8, word: i32) -> u8;
    fn unit_set_bucket(
        unit: *mut Unit,
        set: u8,
        size: u8,
        set_level: u8,
        clear_level: u8,
        decay: u8,
    ) -> u8;
    fn unit_assign_bucket(unit: *mut Unit, input: u8, set: u8) -> u8;
    fn unit_set_week(unit: *mut Unit, place: u32) -> u8;
    fn unit_set_windows(unit: *mut Unit, count: u8, windows: *const [u32; 16]) -> u8;
    fn unit_load(unit: *mut Unit, table: *const u8, length: usize) -> u8;
    fn unit_read(unit: *const Unit, address: u8) -> u16;
}

impl Unit {
    /// The standard fresh unit.
    pub fn fresh() -> Unit {
        // SAFETY: the fields are numbers and arrays of them, and 0 is a number.
        let mut unit: Unit = unsafe { zeroed() };
        unit.make();
        unit
    }

    /// Makes the unit the standard fresh one, whatever it held before.
    pub fn make(&mut self) {
        // SAFETY: the pointer is to a whole unit, lent for the call alone.
        unsafe { unit_make(self) }
    }

    /// The refusal's number, 0 if accepted, 12 if the fields are no event. A
    /// refusal leaves every byte of the unit as it was.
    pub fn event(&mut self, kind: u8, a: u8, b: u8, word: i32) -> u8 {
        // SAFETY: the pointer is to a whole unit, lent for the call alone; the
        // function takes every value of the other arguments.
        unsafe { unit_event(self, kind, a, b, word) }
    }

    /// Sets a bucket set 0 to 3, and puts each input that has it at its size,
    /// alarm set. The numbers are S, U, L and d of document 02's #104; 14 if
    /// they are out of bounds or the set is over 3, 0 if accepted. A refusal
    /// leaves every byte of the unit as it was.
    pub fn set_bucket(
        &mut self,
        set: u8,
        size: u8,
        set_level: u8,
        clear_level: u8,
        decay: u8,
    ) -> u8 {
        // SAFETY: the pointer is to a whole unit, lent for the call alone; the
        // function takes every value of the other arguments.
        unsafe { unit_set_bucket(self, set, size, set_level, clear_level, decay) }
    }

    /// Gives an input 1 to 8 the bucket set 0 to 3, and puts it at the set's
    /// size, alarm set. 6 if there is no such input, else 14 if there is no such
    /// set, 0 if accepted. A refusal leaves every byte of the unit as it was.
    pub fn assign_bucket(&mut self, input: u8, set: u8) -> u8 {
        // SAFETY: the pointer is to a whole unit, lent for the call alone; the
        // function takes every value of the other arguments.
        unsafe { unit_assign_bucket(self, input, set) }
    }

    /// Sets the place in the week, that of the next accepted tick: 16 if it is
    /// 4,725,000 or more, 0 if accepted. A refusal leaves every byte of the unit
    /// as it was.
    pub fn set_week(&mut self, place: u32) -> u8 {
        // SAFETY: the pointer is to a whole unit, lent for the call alone; the
        // function takes every value of the other argument.
        unsafe { unit_set_week(self, place) }
    }

    /// Sets the windows of the busy hours: the first `count` pairs, each from its
    /// start up to but not including its end. 16 if there are over eight, or they
    /// are out of the bounds of document 02's #107, 0 if accepted. A refusal
    /// leaves every byte of the unit as it was.
    pub fn set_windows(&mut self, count: u8, windows: &[u32; 16]) -> u8 {
        // SAFETY: the pointers are to a whole unit and to 16 numbers, lent for the
        // call alone; the function takes every value of them and of the count.
        unsafe { unit_set_windows(self, count, windows) }
    }

    /// Makes the unit anew, a fresh one with these values of its registers: a
    /// byte for each in address order, with 0 for the command and for those that
    /// are read only. 15 if the table does not load, 0 if it does. A refusal
    /// leaves every byte of the unit as it was.
    pub fn load(&mut self, table: &[u8]) -> u8 {
        // SAFETY: the pointers are to a whole unit and to as many bytes as the
        // length says, lent for the call alone; the function takes every length
        // and every byte.
        unsafe { unit_load(self, table.as_ptr(), table.len()) }
    }

    /// The refusal's number and the byte.
    pub fn read(&self, address: u8) -> (u8, u8) {
        // SAFETY: the pointer is to a whole unit, which is only read.
        let answer = unsafe { unit_read(self, address) };
        let [byte, refusal] = answer.to_le_bytes();
        (refusal, byte)
    }
}
