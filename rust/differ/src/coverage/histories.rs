//! The items of #102: the building history beside the kept blocks, and the old
//! rules beside today's.

use super::{family, Condition, Moment, SingleCondition};
use model::{State, BLOCKS_FOR_READY};

/// One block less than the building history needs.
const NEARLY_BUILT: usize = BLOCKS_FOR_READY - 1;

impl Moment<'_> {
    /// A tick that selects the first reference of all.
    fn first_reference(&self) -> bool {
        self.accepted_tick()
            && self.before.history.last_reference.is_none()
            && self.after.history.last_reference.is_some()
    }

    /// A tick that selects the reference selected last again.
    fn same_reference(&self) -> bool {
        self.accepted_tick()
            && self.selection_changed()
            && self.after.reference_selected()
            && self.before.history.last_reference == self.after.history.last_reference
    }

    /// A switch that starts a building history where there was none.
    fn building_begun(&self) -> bool {
        self.another_reference() && !self.before.history.builds() && self.after.history.builds()
    }

    /// A building history with this many blocks is emptied, and goes on.
    fn emptied(&self, blocks: usize) -> bool {
        let after = &self.after.history;
        blocks > 0 && self.before.history.built() == blocks && after.builds() && after.built() == 0
    }

    /// A tick in which the building blocks replace the kept ones.
    fn replaced(&self) -> bool {
        self.block_completed() && self.before.history.builds() && !self.after.history.builds()
    }
}

/// The families of like items.
pub fn conditions() -> Vec<(String, Condition)> {
    let mut list = family(
        1..=3,
        |command| format!("history command {} accepted with blocks building", command),
        |m, command| m.write(0x26, command, 0) && m.before.history.built() > 0,
    );
    list.extend(family(
        1..=3,
        |command| format!("history command {} accepted, nothing building", command),
        |m, command| m.write(0x26, command, 0) && !m.before.history.builds(),
    ));
    list.extend(family(
        0..=1,
        |policy| format!("policy {} written with blocks building", policy),
        |m, policy| m.write(0x25, policy, 0) && m.before.history.built() > 0,
    ));
    list.extend(family(
        1..=2,
        |command| format!("command {} accepted, refused under the old rules", command),
        |m, command| m.write(0x26, command, 0) && m.old_refusal == 8,
    ));
    list
}

/// The items that are not one of a family.
pub const CONDITIONS: &[(&str, SingleCondition)] = &[
    ("building begun by the first selection", |m| {
        m.first_reference() && m.after.history.builds()
    }),
    ("first selection under policy 1, nothing building", |m| {
        m.first_reference() && !m.after.history.builds()
    }),
    ("building begun by a switch, Ready", |m| {
        m.building_begun() && m.after.ready()
    }),
    (
        "building begun by a switch, blocks in use, not Ready",
        |m| m.building_begun() && !m.after.history.kept.is_empty() && !m.after.ready(),
    ),
    ("building history emptied by a further switch", |m| {
        m.another_reference() && m.emptied(m.before.history.built())
    }),
    ("building history of 42 blocks emptied by a switch", |m| {
        m.another_reference() && m.emptied(NEARLY_BUILT)
    }),
    ("building history of 42 blocks emptied by a command", |m| {
        m.accepted_write(0x26) && m.emptied(NEARLY_BUILT)
    }),
    ("building history left by a switch under policy 1", |m| {
        m.another_reference() && m.after.history.built() > 0
    }),
    ("kept blocks left filling by a switch under policy 1", |m| {
        m.another_reference() && !m.after.history.builds() && !m.after.history.kept.is_empty()
    }),
    ("same reference selected again with blocks building", |m| {
        m.same_reference() && m.after.history.built() > 0
    }),
    ("block 43 makes Ready", |m| {
        m.replaced() && !m.before.ready()
    }),
    ("block 43 replaces blocks that were Ready", |m| {
        m.replaced() && m.before.ready()
    }),
    ("block 44 joins those in use, nothing building", |m| {
        m.block_completed()
            && !m.before.history.builds()
            && m.before.history.kept.len() == BLOCKS_FOR_READY
    }),
    ("Hit accepted with blocks building", |m| {
        m.accepted_hit() && m.before.history.built() > 0
    }),
    ("command 1 refused with blocks building", |m| {
        m.write(0x26, 1, 8) && m.before.history.built() > 0
    }),
    ("Holdover while a history builds", |m| {
        m.before.reference_selected()
            && m.after.pll.state == State::Holdover
            && m.after.history.builds()
    }),
    ("Ready, also under the old rules", |m| {
        m.after.ready() && m.old.ready()
    }),
    ("Ready, under the old rules not", |m| {
        m.after.ready() && !m.old.ready()
    }),
    ("Ready ended by command 3", |m| {
        m.write(0x26, 3, 0) && m.before.ready()
    }),
    ("Holdover, under the old rules Free Run", |m| {
        m.after.pll.state == State::Holdover && m.old.pll.state == State::FreeRun
    }),
];
