//! The reversion of each of the 256 delays, by events and reads alone: "the
//! switch comes when wait − 1 is n or more, n being the least with 4n ≥ 1,875
//! times the delay in minutes". The wait is 1 in its first tick, so the switch
//! comes in tick n + 1. The same check is made of the real controller, of the
//! model, and of models that are wrong for one delay.

#[path = "devices/reversion.rs"]
mod reversion;

use differ::device::Device;
use differ::table::Table;
use model::{wait_limit, Call, Unit};
use reversion::{reverting_device, tick_of_switch};

/// More ticks than the longest wait takes.
const MOST_TICKS: u32 = 120_000;

/// n for each delay, counted up by the rule itself. It never falls from one
/// delay to the next, so the count goes on from the last one.
fn least_n() -> Vec<u32> {
    let mut n = 0;
    let count_up = |delay: u32| {
        while 4 * n < 1_875 * delay {
            n += 1;
        }
        n
    };
    (0..=255).map(count_up).collect()
}

/// Those of the delays at which a device does not switch in tick n + 1, each
/// with the tick in which it does.
fn wrong_delays<D: Device>(
    make: &D,
    delays: impl IntoIterator<Item = u8>,
) -> Vec<(u8, Option<u32>)> {
    let n = least_n();
    delays
        .into_iter()
        .map(|delay| (delay, reverting_device(make, delay)))
        .map(|(delay, device)| (delay, tick_of_switch(device, MOST_TICKS)))
        .filter(|&(delay, tick)| tick != Some(n[usize::from(delay)] + 1))
        .collect()
}

#[test]
#[cfg(feature = "controller")]
fn the_controller_reverts_in_time_at_each_delay() {
    assert_eq!(wrong_delays(&controller::Unit::fresh(), 0..=255), []);
}

#[test]
fn the_model_reverts_in_time_at_each_delay() {
    assert_eq!(wrong_delays(&Unit::fresh(), 0..=255), []);
    let limits: Vec<_> = (0..=255).map(wait_limit).collect();
    assert_eq!(limits, least_n());
}

/// 1,875 times 1, 2, 3, 254 and 255 is 1,875, 3,750, 5,625, 476,250 and
/// 478,125; 4n is 1,876, 3,752, 5,628, 476,252 and 478,128.
#[test]
fn the_least_n_of_the_first_and_last_delays() {
    let n = [0, 1, 2, 3, 254, 255].map(|delay: usize| least_n()[delay]);
    assert_eq!(n, [0, 469, 938, 1_407, 119_063, 119_532]);
}

/// The model, wrong for one delay: the first tick of the wait counts 0 or 2 in
/// place of 1. With 0 the switch comes a tick late, with 2 a tick early.
#[derive(Clone, PartialEq)]
struct Wrong {
    unit: Unit,
    delay: u8,
    first_tick: u32,
    counted: bool,
}

impl Wrong {
    fn at(delay: u8, first_tick: u32) -> Wrong {
        Wrong {
            unit: Unit::fresh(),
            delay,
            first_tick,
            counted: false,
        }
    }
}

impl Device for Wrong {
    fn name(&self) -> &'static str {
        "wrong for one delay"
    }

    fn fresh(&self) -> Wrong {
        Wrong::at(self.delay, self.first_tick)
    }

    fn event(&mut self, kind: u8, a: u8, b: u8, word: i32) -> u8 {
        let unit = &mut self.unit;
        if unit.settings.delay == self.delay && unit.wait.ticks == 1 && !self.counted {
            unit.wait.ticks = self.first_tick;
            self.counted = true;
        }
        unit.event_fields(kind, a, b, word)
    }

    fn call(&mut self, call: Call) -> u8 {
        self.unit.call(&call)
    }

    fn load(&mut self, table: Table) -> u8 {
        self.unit.load(&table.bytes())
    }

    fn read(&self, address: u8) -> (u8, u8) {
        self.unit.read(address)
    }
}

/// A wrong delay is looked for among some of the right ones.
#[test]
fn one_tick_less_or_more_is_found_at_its_delay_alone() {
    let delays = [0, 1, 2, 3, 4, 5, 136, 137, 138, 254, 255];
    for delay in [1, 4, 137, 255] {
        let n = wait_limit(delay);
        let (early, late) = (Wrong::at(delay, 2), Wrong::at(delay, 0));
        assert_eq!(wrong_delays(&early, delays), [(delay, Some(n))]);
        assert_eq!(wrong_delays(&late, delays), [(delay, Some(n + 2))]);
    }
}
