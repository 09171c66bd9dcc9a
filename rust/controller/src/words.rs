//! The numbers of the interface: the kinds of events, and the states and
//! refusals as documents 01 and 02 call them.

/// The kinds of events.
pub const TICK: u8 = 0;
pub const MEASUREMENT: u8 = 1;
pub const HIT: u8 = 2;
pub const WRITE: u8 = 3;
/// A measurement in 1/64 ppm: document 02's #106.
pub const FINER_MEASUREMENT: u8 = 4;

/// The names of the states by their numbers, the upper digit of 0x48.
pub const STATES: [&str; 6] = [
    "Free Run",
    "Holdover",
    "Pre-locked",
    "Locked",
    "Loss of lock",
    "Pre-locked 2",
];

/// "Turned down", from 1 on; what 12 and 13 also mean is document 02's, #106 and
/// #101, and 14, 15 and 16 are of its #104, #105 and #107.
const REASONS: [&str; 16] = [
    "address not in the map",
    "write to a read-only register",
    "value above the register's largest",
    "reject - qualification would be under 6",
    "Hit with no reference 1 to 8 selected",
    "input not 1 to 8",
    "sample out of range",
    "command 1 while not Ready, or command 2 without backup",
    "sheet over 65,535 bytes, or a settings count over 256",
    "sheet ends early",
    "bytes after the events",
    "kind over 4, lock over 1, offset word outside -32,768 to 32,767, or unused field not 0",
    "output under 4 bytes a record, or page output under 1,400 bytes a page",
    "bucket set out of its bounds, or set number over 3",
    "table not 27 bytes, a forbidden nonzero, a value above the register's largest, or reject - qualification under 6",
    "place 4,725,000 or more, over eight windows, or windows out of their bounds",
];

/// The reason of a refusal, by its number from 1.
pub fn reason(number: u8) -> &'static str {
    let place = usize::from(number).wrapping_sub(1);
    REASONS
        .get(place)
        .unwrap_or(&"not a number of documents 01 and 02")
}
