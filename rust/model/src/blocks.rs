//! What a history is made of: the open block of samples, and the sums of the
//! blocks that are complete.

use std::collections::VecDeque;

/// "128 samples complete a block (16.384 s)"
pub const SAMPLES_PER_BLOCK: u32 = 128;
/// "the latest 64 block sums are kept (1,049 s)"
pub const BLOCKS_KEPT: usize = 64;

/// The samples since the last complete block.
#[derive(Clone, Copy, Debug, PartialEq, Eq)]
pub struct OpenBlock {
    pub sum: i64,
    pub samples: u32,
}

impl OpenBlock {
    pub const EMPTY: OpenBlock = OpenBlock { sum: 0, samples: 0 };

    /// Step 5. "A tick that ends Locked adds its sample to the open block; a
    /// tick that ends otherwise empties it. 128 samples complete a block
    /// (16.384 s)": the sum of the block that this tick completes, if it does.
    pub fn end_of_tick(&mut self, locked: bool, sample: i32) -> Option<i64> {
        if !locked {
            *self = OpenBlock::EMPTY;
            return None;
        }
        self.sum += i64::from(sample);
        self.samples += 1;
        if self.samples < SAMPLES_PER_BLOCK {
            return None;
        }
        let sum = self.sum;
        *self = OpenBlock::EMPTY;
        Some(sum)
    }
}

/// Block sums, the oldest in front.
pub type Blocks = VecDeque<i64>;

/// A block more. "the latest 64 block sums are kept"
pub(crate) fn add_block(blocks: &mut Blocks, sum: i64) {
    if blocks.len() == BLOCKS_KEPT {
        blocks.pop_front();
    }
    blocks.push_back(sum);
}

/// "The value is the greatest whole number not above the mean of the kept
/// samples."
///
/// Reading: the kept samples are those of the blocks in use; the open block and
/// the building history do not count. None without a block.
pub(crate) fn value_of(blocks: &Blocks) -> Option<i64> {
    let samples = i64::from(SAMPLES_PER_BLOCK) * blocks.len() as i64;
    // With a divisor above 0, div_euclid rounds down.
    (samples > 0).then(|| blocks.iter().sum::<i64>().div_euclid(samples))
}
