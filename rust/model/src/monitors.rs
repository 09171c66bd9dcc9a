//! The monitors of one input: tick steps 1 and 2, and measurements.

use crate::buckets::BucketSet;

/// "Good adds 1 to its soak up to 79 (10 s)"
pub const SOAK_TICKS: u8 = 79;
/// What a lock alarm's remainder starts from.
pub const LOCK_ALARM_TICKS: u16 = 782;

/// Document 02, #106: "A measurement of the old kind means 32 times its byte":
/// its offset in 1/64 ppm.
pub fn finer_offset(byte: i8) -> i16 {
    32 * i16::from(byte)
}

/// Document 02, #106: "the limits are compared as 32 times theirs": a limit in
/// 1/64 ppm.
pub fn finer_limit(limit: u8) -> u16 {
    32 * u16::from(limit)
}

#[derive(Clone, Copy, Debug, PartialEq, Eq)]
pub struct Input {
    /// The activity bucket's level.
    pub level: u8,
    pub decay: u8,
    pub activity_alarm: bool,
    pub frequency_alarm: bool,
    /// The lock alarm's remainder in ticks; the alarm stands while it is not 0.
    pub remainder: u16,
    pub soak: u8,
}

impl Input {
    /// "Fresh: all counts 0, activity alarms clear, frequency alarms set"
    pub fn fresh() -> Input {
        Input {
            level: 0,
            decay: 0,
            activity_alarm: false,
            frequency_alarm: true,
            remainder: 0,
            soak: 0,
        }
    }

    /// Step 1. "Bucket: an irregular tick adds 1 up to 8 and zeroes the decay
    /// count. Otherwise the decay count rises; at 2 it is zeroed and the level
    /// falls by 1, not below 0. Activity alarm: set at level 6 or more, cleared
    /// at 4 or less, kept at 5." Since document 02's #104 the input's set has
    /// these numbers: "size S, set level U, clear level L, decay of 2^d ticks".
    pub fn watch_activity(&mut self, irregular: bool, bucket: &BucketSet) {
        if irregular {
            if self.level < bucket.size {
                self.level += 1;
            }
            self.decay = 0;
        } else {
            self.decay += 1;
            if self.decay == bucket.decay_ticks() {
                self.decay = 0;
                self.level = self.level.saturating_sub(1);
            }
        }
        if self.level >= bucket.set_level {
            self.activity_alarm = true;
        } else if self.level <= bucket.clear_level {
            self.activity_alarm = false;
        }
    }

    /// Document 02, #104: "Setting or assigning a set, even as it was, puts
    /// each input it concerns at level S, alarm set, decay count 0." The soak
    /// stays as it is: the next tick judges.
    pub fn start_bucket(&mut self, bucket: &BucketSet) {
        self.level = bucket.size;
        self.activity_alarm = true;
        self.decay = 0;
    }

    /// Step 2. "A standing lock alarm's remainder falls by 1." "Good adds 1 to
    /// its soak up to 79 (10 s), else soak is 0."
    ///
    /// Reading: good is judged after the remainder's fall, in the order of the
    /// sentences, so the tick that takes it to 0 already adds to the soak.
    pub fn count_soak(&mut self) {
        self.remainder = self.remainder.saturating_sub(1);
        if !self.good() {
            self.soak = 0;
        } else if self.soak < SOAK_TICKS {
            self.soak += 1;
        }
    }

    /// "An input is good when its activity and frequency alarms are clear and
    /// the remainder is 0."
    pub fn good(&self) -> bool {
        !self.activity_alarm && !self.frequency_alarm && self.remainder == 0
    }

    /// "Qualified means soak 79"
    pub fn qualified(&self) -> bool {
        self.soak == SOAK_TICKS
    }

    /// "Unlock run 782 (100 s) sets that input's lock alarm remainder to 782
    /// and its soak to 0."
    pub fn set_lock_alarm(&mut self) {
        self.remainder = LOCK_ALARM_TICKS;
        self.soak = 0;
    }

    /// "A measurement's magnitude above the reject limit sets the frequency
    /// alarm; at or below the qualification limit clears it; between, it is
    /// kept." The offset is in 1/64 ppm, of whichever kind the measurement is.
    pub fn measure(&mut self, offset: i16, reject: u8, qualification: u8) {
        // The magnitude of −32,768 is 32,768, which an unsigned 16-bit number
        // holds.
        let magnitude = offset.unsigned_abs();
        if magnitude > finer_limit(reject) {
            self.frequency_alarm = true;
        } else if magnitude <= finer_limit(qualification) {
            self.frequency_alarm = false;
        }
    }
}
