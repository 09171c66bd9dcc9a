//! The three lists that are measured, as sheets and event by event: a settled
//! unit, a mixed list, and a reversion that waits.

use model::{sheet_of, Event, SAMPLE_LIMIT, SOAK_TICKS};
use shared::random::Random;

/// How many events each of the lists has.
pub const EVENTS: usize = 8_000;

pub const LISTS: [(&str, fn() -> List); 3] =
    [("settled", settled), ("mixed", mixed), ("waiting", waiting)];

pub struct List {
    settings: Vec<(u8, u8)>,
    events: Vec<Event>,
}

/// The kind, a, b and word of an event.
pub type Fields = (u8, u8, u8, i32);

impl List {
    pub fn sheet(&self) -> Vec<u8> {
        sheet_of(&self.settings, &self.events)
    }

    /// What a host sends: the settings as writes, then the events.
    pub fn fields(&self) -> Vec<Fields> {
        let write = |&(address, value): &_| Event::Write { address, value };
        let writes = self.settings.iter().map(write);
        let events = writes.chain(self.events.iter().copied());
        events.map(|event| event.to_fields()).collect()
    }
}

/// Automatic control, all inputs measured well; from then on every event is an
/// accepted tick with lock, all clocks clean, input 1 soon Locked.
fn settled() -> List {
    let measured = (1..=8).map(|input| Event::Measurement { input, offset: 0 });
    List {
        settings: vec![(0x40, 1)],
        events: measured.chain(clean_ticks()).take(EVENTS).collect(),
    }
}

/// Ticks with lock, all clocks clean.
fn clean_ticks() -> impl Iterator<Item = Event> {
    (0..).map(|index| Event::Tick {
        mask: 0,
        lock: true,
        sample: index % 1_000 - 500,
    })
}

/// Ticks with changing irregular masks and lock flags, measurements, writes
/// and Hits; some of them are refused.
fn mixed() -> List {
    let mut random = Random::new(1);
    List {
        settings: vec![(0x40, 1), (0x1c, 0x08), (0x1d, 0x09)],
        events: (0..EVENTS).map(|_| any_event(&mut random)).collect(),
    }
}

fn any_event(random: &mut Random) -> Event {
    let choice = random.below(64);
    let mask = random.byte() & random.byte() & random.byte();
    let sample = random.below(2_000) as i32 - 1_000;
    match choice {
        0 => Event::Hit,
        // An input 0 or 9 is refused; most offsets clear the frequency alarm.
        1..=5 => Event::Measurement {
            input: random.below(10) as u8,
            offset: random.byte() as i8 / 4,
        },
        // Priorities; 0x1b is not in the map.
        6 | 7 => Event::Write {
            address: 0x1b + random.below(10) as u8,
            value: random.byte() & 0x0f,
        },
        // Control, mask and limit; some values are above the largest.
        8 => Event::Write {
            address: random.pick(&[0x40, 0x42, 0x44]),
            value: random.pick(&[1, 31, 127, 255]),
        },
        9 => Event::Tick {
            mask,
            lock: true,
            sample: SAMPLE_LIMIT + 1,
        },
        _ => Event::Tick {
            mask,
            lock: random.below(32) > 0,
            sample,
        },
    }
}

/// As settled, but with inputs 1 and 2 alone. Input 2 is selected while 1 is
/// masked; after a soak 1 stands better, and 2, revertive, stays for the longest
/// delay: from then on every event is an accepted tick of the wait. In the other
/// two lists the delay is 0, and no wait is left running.
fn waiting() -> List {
    let measured = (1..=2).map(|input| Event::Measurement { input, offset: 0 });
    let mut events: Vec<_> = measured.chain(clean_ticks()).take(EVENTS).collect();
    let (address, value) = (0x42, 0xff);
    events[2 + usize::from(SOAK_TICKS)] = Event::Write { address, value };
    let settings = vec![(0x40, 1), (0x42, 0xfe), (0x1d, 0x08), (0x43, 255)];
    List { settings, events }
}
