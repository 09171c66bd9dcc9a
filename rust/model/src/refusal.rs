//! The refusals of an event, a call, a table, a read or a sheet, with the
//! numbers of "Turned down" and of document 02.

#[derive(Clone, Copy, Debug, PartialEq, Eq)]
pub enum Refusal {
    /// "address not in the map (a read gives 1 and byte 0)"
    NotInTheMap = 1,
    /// "write to R"
    ReadOnly = 2,
    /// "value above Largest"
    AboveLargest = 3,
    /// "reject − qualification would be under 6"
    LimitsTooClose = 4,
    /// "Hit with no reference 1 to 8 selected"
    NoReferenceToHit = 5,
    /// "input not 1 to 8"
    NoSuchInput = 6,
    /// "sample out of range"
    SampleOutOfRange = 7,
    /// "command 1 unless Ready, command 2 without backup"
    CommandNotPossible = 8,
    /// "sheet over 65,535 bytes, or a settings count over 256"
    TooLarge = 9,
    /// "sheet ends early"
    EndsEarly = 10,
    /// "bytes after the events"
    BytesAfterEvents = 11,
    /// "kind over 3, lock over 1, or unused field not 0"; in document 02, #106:
    /// "a word outside −32,768 to 32,767 gives 12, which covers kinds over 4
    /// from now on"
    NoEvent = 12,
    /// "output under 4 bytes a record"; in document 02, #101: "a page output
    /// under 1,400 bytes a page"
    OutputTooShort = 13,
    /// Document 02, #104: "set out of these bounds or set number over 3"
    NoSuchBucketSet = 14,
    /// Document 02, #105: "wrong length, a forbidden nonzero, a value above
    /// Largest or reject − qualification under 6"
    DoesNotLoad = 15,
    /// Document 02, #107: "place 4,725,000 or more, over eight windows, start
    /// not before end, end past the week, not ascending with a free tick
    /// between, or first at 0 with last ending the week"
    NoSuchWeek = 16,
}

impl Refusal {
    pub fn number(self) -> u8 {
        self as u8
    }
}

/// The number that answers an event, a call or a table: 0 if it is accepted.
pub(crate) fn number_of(outcome: Result<(), Refusal>) -> u8 {
    match outcome {
        Ok(()) => 0,
        Err(refusal) => refusal.number(),
    }
}
