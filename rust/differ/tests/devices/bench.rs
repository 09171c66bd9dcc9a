//! A device and the model, which must agree in each answer and register.

use differ::device::Device;
use differ::pair::Pair;
use differ::sent::Sent;
use model::{Event, Unit};

/// The ticks from selected to Ready: 16 of lock, the last of them with the
/// first sample of 43 blocks of 128.
pub const TO_READY: u32 = 15 + 43 * 128;

pub struct Bench<D> {
    pair: Pair<D>,
}

impl<D: Device> Bench<D> {
    pub fn fresh(make: &D) -> Bench<D> {
        let pair = Pair::fresh(make);
        Bench { pair }
    }

    /// The common answer; a refusal must leave both as they were.
    pub fn send(&mut self, sent: impl Into<Sent>) -> u8 {
        let sent = sent.into();
        let outcome = self.pair.send(sent);
        let refusal = outcome.unwrap_or_else(|found| panic!("{}: {}", sent, found));
        if let Err(found) = self.pair.read_map() {
            panic!("{}: {}", sent, found);
        }
        refusal
    }

    pub fn accept(&mut self, sent: impl Into<Sent>) {
        let sent = sent.into();
        assert_eq!(self.send(sent), 0, "{}", sent);
    }

    pub fn write(&mut self, address: u8, value: u8) {
        self.accept(Event::Write { address, value });
    }

    pub fn measure(&mut self, input: u8) {
        self.accept(Event::Measurement { input, offset: 0 });
    }

    pub fn ticks(&mut self, count: u32, mask: u8, lock: bool) {
        let sample = 0;
        for _ in 0..count {
            self.accept(Event::Tick { mask, lock, sample });
        }
    }

    pub fn clean_ticks(&mut self, count: u32) {
        self.ticks(count, 0, true);
    }

    /// The model's, whose registers are the device's.
    pub fn unit(&self) -> &Unit {
        &self.pair.model
    }

    /// The reference is not selected before tick `first`, and from then on is;
    /// Ready stands from 5,519 ticks later, and not before.
    pub fn expect_service(&mut self, reference: u8, first: u32) {
        self.clean_ticks(first - 1);
        assert_ne!(self.unit().selected, reference, "before tick {}", first);
        self.clean_ticks(1);
        assert_eq!(self.unit().selected, reference, "tick {}", first);
        self.clean_ticks(TO_READY - 1);
        assert!(!self.unit().ready());
        self.clean_ticks(1);
        assert!(self.unit().ready());
        assert_eq!(self.unit().selected, reference);
    }
}
