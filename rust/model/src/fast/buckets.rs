//! The bucket sets, and their numbers input by input, as a tick uses them.

use super::Lanes;
use crate::buckets::{BucketSet, Buckets};

#[derive(Clone, Copy, Debug, PartialEq, Eq)]
pub struct Sets {
    pub buckets: Buckets,
    pub(super) size: Lanes,
    pub(super) set_level: Lanes,
    pub(super) clear_level: Lanes,
    /// The decay's ticks, which are a power of two, less 1.
    pub(super) decay_mask: Lanes,
}

impl Sets {
    pub(super) fn of(buckets: Buckets) -> Sets {
        let lanes = |number: fn(&BucketSet) -> u8| {
            [1, 2, 3, 4, 5, 6, 7, 8].map(|input| i16::from(number(&buckets.of(input))))
        };
        Sets {
            buckets,
            size: lanes(|set| set.size),
            set_level: lanes(|set| set.set_level),
            clear_level: lanes(|set| set.clear_level),
            decay_mask: lanes(|set| set.decay_ticks() - 1),
        }
    }
}
