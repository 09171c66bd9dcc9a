//! #107, the real controller beside both models: the calls with every count and
//! with numbers around each bound; the week's end, and the wait in a window; and
//! the promise's ticks, reached exactly. Every place of the week is tried in the
//! controller and the plain model alone.

#[path = "../devices/bench.rs"]
mod bench;
#[path = "../devices/beside.rs"]
mod beside;
#[cfg(feature = "controller")]
#[path = "../devices/held.rs"]
mod held;
#[cfg(feature = "controller")]
#[path = "../devices/inspected.rs"]
mod inspected;
#[path = "../devices/reversion.rs"]
mod reversion;

/// Asks it of both models, and of the controller by its bytes and by its fields.
macro_rules! ask_all {
    ($check:ident) => {
        $check(&model::Unit::fresh());
        $check(&crate::beside::Beside::fresh_pair());
        #[cfg(feature = "controller")]
        $check(&crate::held::Held::fresh_unit());
        #[cfg(feature = "controller")]
        $check(&crate::inspected::Inspected::fresh_pair());
    };
}

mod calls;
mod promise;
mod ticks;

use bench::Bench;
use differ::device::Device;
use differ::windows::Numbers;
use model::{Call, Window, SOAK_TICKS};
use reversion::{OTHER, R};

const WEEK: u32 = 4_725_000;

/// Eight windows, each with a free tick before the next, from 1 on.
const EIGHT: Numbers = [
    1, 5, 6, 7, 8, 100, 101, 102, 103, 65_536, 65_537, 65_538, 70_000, 4_000_000, 4_000_001, WEEK,
];

fn windows(list: &[(u32, u32)]) -> Call {
    let windows: Vec<_> = list
        .iter()
        .map(|&(start, end)| Window { start, end })
        .collect();
    Call::windows(&windows)
}

impl<D: Device> Bench<D> {
    fn set_week(&mut self, place: u32) {
        self.accept(Call::SetWeek { place });
    }

    fn set_windows(&mut self, list: &[(u32, u32)]) {
        self.accept(windows(list));
    }

    /// The reference is not selected before tick `tick`, and is in it.
    fn expect_selected(&mut self, reference: u8, tick: u32) {
        self.clean_ticks(tick - 1);
        assert_ne!(self.unit().selected, reference, "before tick {}", tick);
        self.clean_ticks(1);
        assert_eq!(self.unit().selected, reference, "tick {}", tick);
    }
}

/// Automatic control, this delay; OTHER is revertive, behind R and selected.
fn tracking_other<D: Device>(make: &D, delay: u8) -> Bench<D> {
    let mut bench = Bench::fresh(make);
    bench.write(0x40, 1);
    bench.write(0x43, delay);
    bench.write(0x1b + OTHER, 0x09);
    bench.measure(OTHER);
    bench.clean_ticks(u32::from(SOAK_TICKS));
    assert_eq!(bench.unit().selected, OTHER);
    bench
}

/// As `tracking_other`, and R is measured well and has soaked but for one tick:
/// the wait begins with the next.
fn reverting<D: Device>(make: &D, delay: u8) -> Bench<D> {
    let mut bench = tracking_other(make, delay);
    bench.measure(R);
    bench.clean_ticks(u32::from(SOAK_TICKS) - 1);
    bench
}

/// A unit with a wait that is blocked, a place and windows.
fn busy<D: Device>(make: &D) -> Bench<D> {
    let mut bench = reverting(make, 0);
    bench.set_week(1_000);
    bench.set_windows(&[(0, 1), (990, 5_000), (WEEK - 9, WEEK - 4)]);
    bench.clean_ticks(7);
    assert_eq!(bench.unit().wait.ticks, 1);
    bench
}
