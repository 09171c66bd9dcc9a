//! What a switch did to the blocks before document 02's #102: "the old rules",
//! with which today's Ready is compared, and which nothing else uses. Sentences
//! in quotation marks are document 01's.

use crate::blocks::{add_block, Blocks};
use crate::history::SwitchRules;

/// Nothing builds.
#[derive(Clone, Copy, Debug, PartialEq, Eq)]
pub struct OldRules;

impl SwitchRules for OldRules {
    const FRESH: OldRules = OldRules;

    /// "empties blocks and open block first; with policy 1 it doesn't."
    fn switched(&mut self, kept: &mut Blocks) {
        kept.clear();
    }

    fn block_completed(&mut self, kept: &mut Blocks, sum: i64) {
        add_block(kept, sum);
    }

    fn start_again(&mut self) {}
}
