//! The four bucket sets, which input has which, and what the calls change of
//! them. Sentences in quotation marks are document 02's, #104.

use crate::refusal::Refusal;

/// How many sets there are: 0 to 3.
pub const BUCKET_SETS: usize = 4;

/// "size S, set level U, clear level L, decay of 2^d ticks"
#[derive(Clone, Copy, Debug, PartialEq, Eq)]
pub struct BucketSet {
    pub size: u8,
    pub set_level: u8,
    pub clear_level: u8,
    /// d itself.
    pub decay: u8,
}

impl BucketSet {
    /// "All sets start as 8, 6, 4, 1."
    pub const FRESH: BucketSet = BucketSet::of(8, 6, 4, 1);

    /// The set of these S, U, L and d.
    pub const fn of(size: u8, set_level: u8, clear_level: u8, decay: u8) -> BucketSet {
        BucketSet {
            size,
            set_level,
            clear_level,
            decay,
        }
    }

    /// "with L < U ≤ S ≤ 255 and d from 0 to 3": a byte is 255 at most.
    pub fn within_bounds(&self) -> bool {
        self.clear_level < self.set_level && self.set_level <= self.size && self.decay <= 3
    }

    /// "decay of 2^d ticks"
    pub fn decay_ticks(&self) -> u8 {
        1 << self.decay
    }
}

/// The sets after a call, and the inputs that it concerns.
pub(crate) type Changed = (Buckets, Vec<u8>);

/// The sets, and the set of each input.
#[derive(Clone, Copy, Debug, PartialEq, Eq)]
pub struct Buckets {
    pub sets: [BucketSet; BUCKET_SETS],
    /// The number of the set that each input has.
    pub assigned: [u8; 8],
}

impl Buckets {
    /// "Each input has one of four sets, at first set 0"
    pub fn fresh() -> Buckets {
        Buckets {
            sets: [BucketSet::FRESH; BUCKET_SETS],
            assigned: [0; 8],
        }
    }

    /// The set that an input 1 to 8 has.
    pub fn of(&self, input: u8) -> BucketSet {
        let set = self.assigned[usize::from(input) - 1];
        self.sets[usize::from(set)]
    }

    /// The inputs that have this set now.
    pub fn inputs_with(&self, set: u8) -> Vec<u8> {
        let has_it = |&input: &u8| self.assigned[usize::from(input) - 1] == set;
        (1..=8).filter(has_it).collect()
    }

    /// "14: set out of these bounds or set number over 3"
    ///
    /// Reading: setting concerns the inputs that have the set now.
    pub(crate) fn with_set(mut self, set: u8, numbers: BucketSet) -> Result<Changed, Refusal> {
        if !set_exists(set) || !numbers.within_bounds() {
            return Err(Refusal::NoSuchBucketSet);
        }
        self.sets[usize::from(set)] = numbers;
        Ok((self, self.inputs_with(set)))
    }

    /// "14: [...] set number over 3; an input not 1 to 8 gives 6 and is checked
    /// before it."
    ///
    /// Reading: assigning concerns the one input alone.
    pub(crate) fn with_assigned(mut self, input: u8, set: u8) -> Result<Changed, Refusal> {
        if !(1..=8).contains(&input) {
            return Err(Refusal::NoSuchInput);
        }
        if !set_exists(set) {
            return Err(Refusal::NoSuchBucketSet);
        }
        self.assigned[usize::from(input) - 1] = set;
        Ok((self, vec![input]))
    }
}

fn set_exists(set: u8) -> bool {
    usize::from(set) < BUCKET_SETS
}
