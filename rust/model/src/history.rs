//! The holdover history: the open block, the blocks in use, the backup and the
//! commands. What a switch does to the blocks is for the rules of a switch:
//! `building` has those of today, `old_rules` those before document 02's #102.

use crate::blocks::{value_of, Blocks, OpenBlock};
use crate::building::Building;

/// "Ready means 43 blocks or more (701 s)."
pub const BLOCKS_FOR_READY: usize = 43;

/// The history of a unit.
pub type History = HistoryUnder<Building>;

/// What a switch does to the blocks, and what is kept beside them for it.
pub trait SwitchRules {
    const FRESH: Self;

    /// Another reference than the last is selected under policy 0.
    fn switched(&mut self, kept: &mut Blocks);

    /// A block is complete.
    fn block_completed(&mut self, kept: &mut Blocks, sum: i64);

    /// Command 2 or 3 is done to the blocks in use.
    fn start_again(&mut self);
}

/// A history whose switches are under these rules.
#[derive(Clone, Debug, PartialEq, Eq)]
pub struct HistoryUnder<R> {
    pub open: OpenBlock,
    /// The blocks in use: Ready, the value and command 1 speak of them.
    pub kept: Blocks,
    /// What the rules of a switch keep: the building history.
    pub building: R,
    pub backup: Option<Blocks>,
    /// The reference of 1 to 8 selected last; none on a fresh unit.
    pub last_reference: Option<u8>,
}

impl<R: SwitchRules> HistoryUnder<R> {
    pub fn fresh() -> HistoryUnder<R> {
        HistoryUnder {
            open: OpenBlock::EMPTY,
            kept: Blocks::new(),
            building: R::FRESH,
            backup: None,
            last_reference: None,
        }
    }

    pub fn ready(&self) -> bool {
        self.kept.len() >= BLOCKS_FOR_READY
    }

    /// The mean of the samples in use, rounded down; none without a block.
    pub fn value(&self) -> Option<i64> {
        value_of(&self.kept)
    }

    /// Step 5 of a tick that ends Locked or not, with its sample.
    pub fn end_of_tick(&mut self, locked: bool, sample: i32) {
        if let Some(sum) = self.open.end_of_tick(locked, sample) {
            self.building.block_completed(&mut self.kept, sum);
        }
    }

    pub fn empty_open_block(&mut self) {
        self.open = OpenBlock::EMPTY;
    }

    /// "With policy 0, selecting a reference other than the one of 1 to 8
    /// selected last (0 and 9 don't count; fresh: none)": this is the switch
    /// whose rules differ. The policy is read here alone.
    pub fn reference_selected(&mut self, reference: u8, policy: u8) {
        if policy == 0 && self.last_reference != Some(reference) {
            self.building.switched(&mut self.kept);
            self.empty_open_block();
        }
        self.last_reference = Some(reference);
    }

    /// "command 1 unless Ready, command 2 without backup" are refused.
    pub fn command_possible(&self, command: u8) -> bool {
        match command {
            1 => self.ready(),
            2 => self.backup.is_some(),
            _ => true,
        }
    }

    /// "1 copies the kept blocks to backup, 2 replaces them by the backup and
    /// empties the open block, 3 empties both, not the backup." "0 does nothing
    /// else". In #102's words: "Command 1 saves the blocks in use; 2 replaces
    /// those [...]; 3 empties both. Either also empties the open block".
    ///
    /// Reading: document 01's "both" are the kept blocks and the open block,
    /// #102's the blocks in use and the building history.
    pub fn command(&mut self, command: u8) {
        match command {
            1 => self.backup = Some(self.kept.clone()),
            2 => {
                if let Some(backup) = &self.backup {
                    self.kept = backup.clone();
                }
                self.start_again();
            }
            3 => {
                self.kept.clear();
                self.start_again();
            }
            _ => {}
        }
    }

    fn start_again(&mut self) {
        self.building.start_again();
        self.empty_open_block();
    }
}
