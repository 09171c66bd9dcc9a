//! The faults of the history: the kept blocks, the building history, switches
//! and commands.
//!
//! One mistake is not here, since no answer tells it: a first selection of all
//! that starts no building. Until the first Ready there is no backup, and at 43
//! blocks both ways have led to the same state. The stored fields tell it, in
//! the test of the controller's fields.

use crate::faults::*;
use differ::fields::Fields;
use model::{Blocks, Event, State, Unit, BLOCKS_FOR_READY};

/// As `then`, for one command alone.
fn then_after_command(
    unit: &mut Unit,
    fields: Fields,
    command: u8,
    alter: impl Fn(&Unit, &mut Unit),
) -> u8 {
    then(unit, fields, |before, after| {
        if is_command(fields, command) {
            alter(before, after)
        }
    })
}

/// As `then`, for ticks alone that select another reference than the last.
fn then_after_switch(unit: &mut Unit, fields: Fields, alter: impl Fn(&Unit, &mut Unit)) -> u8 {
    then_after_tick(unit, fields, |before, after| {
        if before.history.last_reference != after.history.last_reference {
            alter(before, after)
        }
    })
}

/// As `then`, for ticks alone in which building blocks replace the kept ones.
fn then_after_replacing(unit: &mut Unit, fields: Fields, alter: impl Fn(&Unit, &mut Unit)) -> u8 {
    then_after_tick(unit, fields, |before, after| {
        if before.history.builds() && !after.history.builds() {
            alter(before, after)
        }
    })
}

/// As `then`, for writes of the policy alone.
fn then_after_policy(unit: &mut Unit, fields: Fields, alter: impl Fn(&mut Unit)) -> u8 {
    then(unit, fields, |_, after| {
        if matches!(fields.event(), Some(Event::Write { address: 0x25, .. })) {
            alter(after)
        }
    })
}

/// The building history as it was, in place of one that was emptied.
fn keep_building_blocks(before: &Unit, after: &mut Unit) {
    after.history.building = before.history.building.clone();
}

fn empty_building_blocks(unit: &mut Unit) {
    if let Some(building) = &mut unit.history.building {
        building.clear();
    }
}

fn end_building(unit: &mut Unit) {
    unit.history.building = None;
}

fn start_building(unit: &mut Unit) {
    unit.history.building = Some(Blocks::new());
}

pub static FAULTS: &[Fault] = &[
    in_event("63 blocks kept", |unit, fields| {
        then(unit, fields, |_, after| {
            if after.history.kept.len() == 64 {
                after.history.kept.pop_front();
            }
        })
    }),
    in_event("policy 0 builds nothing", |unit, fields| {
        tick_with(unit, fields, |unit| unit.settings.policy = 1)
    }),
    in_event("policy 1 starts building", |unit, fields| {
        tick_with(unit, fields, |unit| unit.settings.policy = 0)
    }),
    in_event("the last reference forgotten", |unit, fields| {
        then(unit, fields, |_, after| {
            if !after.reference_selected() {
                after.history.last_reference = None;
            }
        })
    }),
    in_event("Ready lost at a switch", |unit, fields| {
        then_after_switch(unit, fields, |_, after| {
            if after.settings.policy == 0 {
                after.history.kept.clear();
            }
        })
    }),
    in_event(
        "a further switch keeps the building blocks",
        |unit, fields| {
            then_after_switch(unit, fields, |before, after| {
                if before.history.builds() && after.history.builds() {
                    keep_building_blocks(before, after);
                }
            })
        },
    ),
    in_event("a switch under policy 1 ends building", |unit, fields| {
        then_after_switch(unit, fields, |_, after| {
            if after.settings.policy == 1 {
                end_building(after);
            }
        })
    }),
    in_event("replaced at 42 blocks", |unit, fields| {
        then(unit, fields, |_, after| {
            if after.history.built() == BLOCKS_FOR_READY - 1 {
                after.history.kept = after.history.building.take().unwrap_or_default();
            }
        })
    }),
    in_event("replaced at 44 blocks", |unit, fields| {
        then_after_replacing(unit, fields, |before, after| {
            if after.history.kept.len() == BLOCKS_FOR_READY {
                let blocks = std::mem::take(&mut after.history.kept);
                after.history.building = Some(blocks);
                after.history.kept = before.history.kept.clone();
            }
        })
    }),
    in_event("what was built joins the kept blocks", |unit, fields| {
        then_after_replacing(unit, fields, |before, after| {
            let blocks = before.history.kept.iter().chain(&after.history.kept);
            let blocks: Vec<_> = blocks.copied().collect();
            let latest = blocks.len().saturating_sub(64);
            after.history.kept = blocks[latest..].to_vec().into();
        })
    }),
    in_event("building goes on behind the 43rd block", |unit, fields| {
        then_after_replacing(unit, fields, |_, after| start_building(after))
    }),
    in_event("a block joins both histories", |unit, fields| {
        then_after_tick(unit, fields, |before, after| {
            if after.history.built() > before.history.built() {
                let newest = after.history.filling().back().copied();
                after.history.kept.extend(newest);
            }
        })
    }),
    in_event("the same reference starts building anew", |unit, fields| {
        then_after_tick(unit, fields, |before, after| {
            if after.selected != before.selected && after.reference_selected() {
                empty_building_blocks(after);
            }
        })
    }),
    in_event("a Hit empties the building history", |unit, fields| {
        then(unit, fields, |_, after| {
            if fields.event() == Some(Event::Hit) {
                empty_building_blocks(after);
            }
        })
    }),
    in_event(
        "losing lock empties the building history",
        |unit, fields| {
            then_after_tick(unit, fields, |before, after| {
                if before.locked() && !after.locked() {
                    empty_building_blocks(after);
                }
            })
        },
    ),
    in_event("writing 0x25 ends building", |unit, fields| {
        then_after_policy(unit, fields, end_building)
    }),
    in_event(
        "writing 0x25 empties the building history",
        |unit, fields| then_after_policy(unit, fields, empty_building_blocks),
    ),
    in_event("writing 0x25 starts building", |unit, fields| {
        then_after_policy(unit, fields, |after| {
            if after.settings.policy == 0 {
                start_building(after);
            }
        })
    }),
    in_read("value of the building blocks", |unit, address| {
        let building = unit.history.building.as_ref();
        let value = building.filter(|blocks| !blocks.is_empty()).map(|blocks| {
            let samples = 128 * blocks.len() as i64;
            blocks.iter().sum::<i64>().div_euclid(samples)
        });
        read_value(unit, address, value)
    }),
    in_event("command 1 without Ready", |unit, fields| {
        if is_command(fields, 1) && !unit.ready() {
            unit.settings.command = 1;
            0
        } else {
            right_event(unit, fields)
        }
    }),
    in_event(
        "command 1 refused by the building blocks",
        |unit, fields| {
            if is_command(fields, 1) && unit.history.builds() {
                8
            } else {
                right_event(unit, fields)
            }
        },
    ),
    in_event("command 1 saves the building blocks", |unit, fields| {
        then_after_command(unit, fields, 1, |_, after| {
            if after.history.builds() {
                after.history.backup = after.history.building.clone();
            }
        })
    }),
    in_event("command 2 keeps the open block", |unit, fields| {
        then_after_command(unit, fields, 2, |before, after| {
            after.history.open = before.history.open;
        })
    }),
    in_event("command 2 leaves the building blocks", |unit, fields| {
        then_after_command(unit, fields, 2, keep_building_blocks)
    }),
    in_event("command 2 ends building", |unit, fields| {
        then_after_command(unit, fields, 2, |_, after| end_building(after))
    }),
    in_event("command 2 starts building", |unit, fields| {
        then_after_command(unit, fields, 2, |_, after| start_building(after))
    }),
    in_event("command 3 keeps the open block", |unit, fields| {
        then_after_command(unit, fields, 3, |before, after| {
            after.history.open = before.history.open;
        })
    }),
    in_event("command 3 leaves the blocks in use", |unit, fields| {
        then_after_command(unit, fields, 3, |before, after| {
            after.history.kept = before.history.kept.clone();
        })
    }),
    in_event("command 3 leaves the building blocks", |unit, fields| {
        then_after_command(unit, fields, 3, keep_building_blocks)
    }),
    in_event("command 3 ends building", |unit, fields| {
        then_after_command(unit, fields, 3, |_, after| end_building(after))
    }),
    in_event("command 3 starts building", |unit, fields| {
        then_after_command(unit, fields, 3, |_, after| start_building(after))
    }),
    in_event("command 3 empties the backup", |unit, fields| {
        then_after_command(unit, fields, 3, |_, after| after.history.backup = None)
    }),
    in_event("command 3 changes the state", |unit, fields| {
        then_after_command(unit, fields, 3, |before, after| {
            if before.pll.state == State::Holdover {
                after.pll.state = State::FreeRun;
            }
        })
    }),
];
