//! The building history beside the blocks in use. Sentences in quotation marks
//! are those of document 02, #102.

use crate::blocks::{add_block, Blocks};
use crate::history::{History, SwitchRules, BLOCKS_FOR_READY};

/// The blocks of the building history; none while nothing builds.
pub type Building = Option<Blocks>;

impl SwitchRules for Building {
    const FRESH: Building = None;

    /// "Where policy 0 emptied the blocks, the switch now starts a second,
    /// building history, and a further switch to another reference empties it."
    /// "A switch under policy 1 leaves whichever history is filling as it is.":
    /// it does not come here.
    ///
    /// Reading: policy 0 emptied the blocks at the first selection of all too,
    /// and at a switch back to an earlier reference; so these start to build.
    fn switched(&mut self, _: &mut Blocks) {
        *self = Some(Blocks::new());
    }

    /// The block joins the history that fills. "The kept blocks stay in use
    /// until the building history has 43 blocks, which then replace them."
    ///
    /// Reading: they replace them in the tick that completes block 43. Then
    /// nothing builds, and the kept blocks go on filling up to 64.
    fn block_completed(&mut self, kept: &mut Blocks, sum: i64) {
        let building = match self {
            Some(building) => building,
            None => return add_block(kept, sum),
        };
        add_block(building, sum);
        if building.len() >= BLOCKS_FOR_READY {
            *kept = std::mem::take(building);
            *self = None;
        }
    }

    /// "2 replaces those and empties the building history; 3 empties both. [...]
    /// and a history that was building goes on building from nothing."
    fn start_again(&mut self) {
        if let Some(building) = self {
            building.clear();
        }
    }
}

impl History {
    pub fn builds(&self) -> bool {
        self.building.is_some()
    }

    /// How many blocks the building history has, 0 while nothing builds.
    pub fn built(&self) -> usize {
        self.building.as_ref().map_or(0, Blocks::len)
    }

    /// The blocks of the history that fills: the building one, or the kept
    /// blocks while nothing builds.
    pub fn filling(&self) -> &Blocks {
        self.building.as_ref().unwrap_or(&self.kept)
    }
}
