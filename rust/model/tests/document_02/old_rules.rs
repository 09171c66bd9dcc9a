//! #102: "Over the same list from fresh, Ready stands after each event after
//! which it stood under the old rules, and once standing it ends only by
//! command 3."

use model::{Event, OldUnit, State, Unit};

/// The unit and one under the old rules, over the same list from fresh.
struct Both {
    unit: Unit,
    old: OldUnit,
}

impl Both {
    fn fresh() -> Both {
        Both {
            unit: Unit::fresh(),
            old: OldUnit::fresh(),
        }
    }

    /// The answers of both, the old one's last.
    fn event(&mut self, event: Event) -> (u8, u8) {
        let stood = self.unit.ready();
        let answers = (self.unit.event(&event), self.old.event(&event));
        assert!(self.unit.ready() || !self.old.ready(), "{:?}", event);
        let command_3 = event == write(0x26, 3);
        assert!(self.unit.ready() || !stood || command_3, "{:?}", event);
        answers
    }

    fn ticks(&mut self, count: u32, lock: bool, sample: i32) {
        let mask = 0;
        for _ in 0..count {
            assert_eq!(self.event(Event::Tick { mask, lock, sample }), (0, 0));
        }
    }

    fn accept(&mut self, event: Event) {
        assert_eq!(self.event(event), (0, 0), "{:?}", event);
    }

    /// Selects an input by masking all others, and fills blocks on it.
    fn fill_on(&mut self, input: u8, blocks: u32, sample: i32) {
        self.accept(Event::Measurement { input, offset: 0 });
        self.ticks(79, false, 0);
        self.accept(write(0x42, 1 << (input - 1)));
        self.ticks(1, false, 0);
        self.ticks(15 + 128 * blocks, true, sample);
    }

    /// Both are Ready, on input 1.
    fn ready() -> Both {
        let mut both = Both::fresh();
        both.accept(write(0x40, 1));
        both.fill_on(1, 42, 5);
        assert_eq!(both.readies(), (false, false));
        both.ticks(128, true, 5);
        assert_eq!(both.readies(), (true, true));
        both
    }

    fn readies(&self) -> (bool, bool) {
        (self.unit.ready(), self.old.ready())
    }

    fn states(&self) -> (State, State) {
        (self.unit.pll.state, self.old.pll.state)
    }
}

fn write(address: u8, value: u8) -> Event {
    Event::Write { address, value }
}

/// "Operators lose the value at each reference switch and fall to Free Run if
/// the new clock dies within 12 minutes."
#[test]
fn where_the_old_rules_fall_to_free_run_the_value_is_held() {
    let mut both = Both::ready();
    both.fill_on(2, 42, 6);
    assert_eq!(both.readies(), (true, false));
    both.accept(Event::Hit);
    assert_eq!(both.states(), (State::Holdover, State::FreeRun));
    both.ticks(79, false, 0);
    assert_eq!(both.states(), (State::PreLocked2, State::PreLocked));
    both.ticks(15 + 128, true, 6);
    assert_eq!(both.readies(), (true, true));
    assert_eq!((both.unit.value(), both.old.value()), (6, 6));
}

#[test]
fn policy_1_is_as_it_was() {
    let mut both = Both::ready();
    both.accept(write(0x25, 1));
    both.fill_on(2, 21, 6);
    assert_eq!(both.readies(), (true, true));
    assert_eq!(both.unit.value(), both.old.value());
}

/// Commands 1 and 2 that the old rules refuse after a switch; the open block
/// that command 2 empties is kept there, and fills first.
#[test]
fn a_command_may_be_accepted_by_one_and_refused_by_the_other() {
    let mut both = Both::ready();
    both.fill_on(2, 42, 6);
    assert_eq!(both.event(write(0x26, 1)), (0, 8));
    both.ticks(127, true, 6);
    assert_eq!(both.event(write(0x26, 2)), (0, 8));
    both.ticks(1, true, 6);
    assert_eq!(both.readies(), (true, true));
    assert_eq!((both.unit.value(), both.old.value()), (5, 6));
    both.accept(write(0x26, 1));
    both.accept(write(0x26, 2));
}

#[test]
fn command_3_ends_ready_under_both() {
    let mut both = Both::ready();
    both.fill_on(2, 1, 6);
    both.accept(write(0x26, 3));
    assert_eq!(both.readies(), (false, false));
    both.ticks(43 * 128, true, 6);
    assert_eq!(both.readies(), (true, true));
}
