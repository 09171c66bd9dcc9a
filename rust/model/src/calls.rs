//! The calls of a host: they change what no register holds. They are events of a
//! unit's history as the others are; a run sheet has no place for them.
//! Sentences in quotation marks are document 02's.

use crate::buckets::BucketSet;
use crate::week::{Window, WINDOW_NUMBERS};

#[derive(Clone, Copy, Debug, PartialEq, Eq)]
pub enum Call {
    /// #104: "Setting [...] a set"
    SetBucket { set: u8, numbers: BucketSet },
    /// #104: "[...] assigning a set"
    AssignBucket { input: u8, set: u8 },
    /// #107: "a call sets the place in the week"
    SetWeek { place: u32 },
    /// #107: "setting [...] the windows". Start and end of each of the first
    /// `count`; the numbers after these are not looked at.
    SetWindows {
        count: u8,
        numbers: [u32; WINDOW_NUMBERS],
    },
}

impl Call {
    /// The call that sets these windows, of which there are 255 at most: the
    /// numbers of the first eight, with 0 for the others.
    pub fn windows(windows: &[Window]) -> Call {
        let mut numbers = [0; WINDOW_NUMBERS];
        for (pair, window) in numbers.chunks_exact_mut(2).zip(windows) {
            pair.copy_from_slice(&[window.start, window.end]);
        }
        let count = windows.len() as u8;
        Call::SetWindows { count, numbers }
    }
}
