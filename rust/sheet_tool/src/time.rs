//! Time: it passes by accepted ticks, 128 ms each.

pub const TICK_MS: u64 = 128;

/// These ticks in seconds.
pub fn seconds(ticks: u64) -> String {
    seconds_of(ticks * TICK_MS)
}

/// These milliseconds in seconds, with three places after the point.
pub fn seconds_of(ms: u64) -> String {
    format!("{}.{:03}", ms / 1_000, ms % 1_000)
}
