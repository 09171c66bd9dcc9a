//! The controller's unit held as bytes, which are lent to the C functions. It is
//! held twice, in memory that had other bytes before: since a unit has no padding,
//! both have the same bytes whatever they take.

use controller::Unit;
use differ::device::Device;
use differ::fields::Fields;
use differ::sent::Sent;
use differ::table::Table;
use model::Call;
use std::mem::size_of;

pub const SIZE: usize = size_of::<Unit>();

extern "C" {
    fn unit_make(unit: *mut u8);
    fn unit_event(unit: *mut u8, kind: u8, a: u8, b: u8, word: i32) -> u8;
    fn unit_set_bucket(
        unit: *mut u8,
        set: u8,
        size: u8,
        set_level: u8,
        clear_level: u8,
        decay: u8,
    ) -> u8;
    fn unit_assign_bucket(unit: *mut u8, input: u8, set: u8) -> u8;
    fn unit_set_week(unit: *mut u8, place: u32) -> u8;
    fn unit_set_windows(unit: *mut u8, count: u8, windows: *const u32) -> u8;
    fn unit_load(unit: *mut u8, table: *const u8, length: usize) -> u8;
}

/// A unit as the bytes that it takes, twice, each aligned as it must be.
#[derive(Clone, PartialEq)]
#[repr(C, align(8))]
pub struct Held {
    pub units: [[u8; SIZE]; 2],
}

impl Held {
    pub fn fresh_unit() -> Held {
        let mut held = Held {
            units: [[0x00; SIZE], [0xff; SIZE]],
        };
        for unit in &mut held.units {
            // SAFETY: the bytes are as many as a unit has, and aligned to 8.
            unsafe { unit_make(unit.as_mut_ptr()) };
        }
        assert!(held.units[0] == held.units[1], "two fresh units");
        held
    }

    pub fn unit(&self) -> &Unit {
        // SAFETY: the bytes are those of a unit, and aligned to 8.
        unsafe { &*self.units[0].as_ptr().cast::<Unit>() }
    }

    /// The refusal's number, and whether all bytes are as before.
    pub fn send(&mut self, sent: Sent) -> (u8, bool) {
        let before = self.units;
        let [refusal, other] = [0, 1].map(|i| give(&mut self.units[i], sent));
        match refusal == other && self.units[0] == self.units[1] {
            true => (refusal, self.units == before),
            false => (BYTES_AT_FAULT, false),
        }
    }
}

/// The refusal's number.
fn give(unit: &mut [u8; SIZE], sent: Sent) -> u8 {
    let unit = unit.as_mut_ptr();
    // SAFETY: the pointers are to the bytes of a unit, to 16 numbers and to the
    // bytes of a table, lent for the call alone; the functions take every value
    // of the other arguments.
    unsafe {
        match sent {
            Sent::Fields(Fields { kind, a, b, word }) => unit_event(unit, kind, a, b, word),
            Sent::Call(Call::SetBucket { set, numbers }) => {
                let (size, decay) = (numbers.size, numbers.decay);
                let (set_level, clear_level) = (numbers.set_level, numbers.clear_level);
                unit_set_bucket(unit, set, size, set_level, clear_level, decay)
            }
            Sent::Call(Call::AssignBucket { input, set }) => unit_assign_bucket(unit, input, set),
            Sent::Call(Call::SetWeek { place }) => unit_set_week(unit, place),
            Sent::Call(Call::SetWindows { count, numbers }) => {
                // A pointer that could be written by, to see that it is not.
                let mut lent = numbers;
                let refusal = unit_set_windows(unit, count, lent.as_mut_ptr());
                assert_eq!(lent, numbers, "the lent numbers are changed");
                refusal
            }
            Sent::Load(table) => {
                let table = table.bytes();
                unit_load(unit, table.as_ptr(), table.len())
            }
        }
    }
}

/// The answer where the two units are not the same, and in random lists where a
/// refusal changes a byte: a refusal that there is not.
const BYTES_AT_FAULT: u8 = 255;

impl Device for Held {
    fn name(&self) -> &'static str {
        "controller and its bytes"
    }

    fn fresh(&self) -> Held {
        Held::fresh_unit()
    }

    fn event(&mut self, kind: u8, a: u8, b: u8, word: i32) -> u8 {
        self.take(Fields { kind, a, b, word }.into())
    }

    fn call(&mut self, call: Call) -> u8 {
        self.take(call.into())
    }

    fn load(&mut self, table: Table) -> u8 {
        self.take(table.into())
    }

    fn take(&mut self, sent: Sent) -> u8 {
        match self.send(sent) {
            (refusal, false) if refusal != 0 => BYTES_AT_FAULT,
            (refusal, _) => refusal,
        }
    }

    fn read(&self, address: u8) -> (u8, u8) {
        self.unit().read(address)
    }
}
