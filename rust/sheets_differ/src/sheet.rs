//! Whole sheets: random settings, then events made by the differ's phases.

use differ::coverage::Coverage;
use differ::difference::Name;
use differ::draw;
use differ::list::{List, Step};
use differ::phases::{become_ready, other_habits};
use differ::scenarios::mix_events;
use model::{
    sheet_of, Event, Unit, BYTES_PER_COUNT, BYTES_PER_EVENT, BYTES_PER_SETTING, LONGEST_SHEET,
};
use shared::random::Random;

/// How many bytes a sheet of so many settings and events has.
pub fn length(settings: usize, events: usize) -> usize {
    2 * BYTES_PER_COUNT + BYTES_PER_SETTING * settings + BYTES_PER_EVENT * events
}

/// A sheet on its way to be damaged: its bytes, and what they held at first.
#[derive(Clone, Debug)]
pub struct Sheet {
    pub bytes: Vec<u8>,
    pub settings: Vec<(u8, u8)>,
    pub events: Vec<Event>,
}

impl Sheet {
    pub fn of(settings: Vec<(u8, u8)>, events: Vec<Event>) -> Sheet {
        Sheet {
            bytes: sheet_of(&settings, &events),
            settings,
            events,
        }
    }

    /// As many settings and events, those there are over and over.
    pub fn resized(&self, settings: usize, events: usize) -> Sheet {
        let settings = self.settings.iter().copied().cycle().take(settings);
        let events = self.events.iter().copied().cycle().take(events);
        Sheet::of(settings.collect(), events.collect())
    }

    /// Where the setting of this index begins; that after the last is the
    /// place of the events count.
    pub fn setting_place(&self, index: usize) -> usize {
        BYTES_PER_COUNT + BYTES_PER_SETTING * index
    }

    pub fn events_count_place(&self) -> usize {
        self.setting_place(self.settings.len())
    }

    /// Where the event of this index begins.
    pub fn event_place(&self, index: usize) -> usize {
        self.events_count_place() + BYTES_PER_COUNT + BYTES_PER_EVENT * index
    }

    pub fn any_setting(&self, random: &mut Random) -> usize {
        random.below(self.settings.len() as u32) as usize
    }

    pub fn any_event(&self, random: &mut Random) -> usize {
        random.below(self.events.len() as u32) as usize
    }

    pub fn set_count(&mut self, place: usize, count: u16) {
        self.bytes[place..place + BYTES_PER_COUNT].copy_from_slice(&count.to_le_bytes());
    }
}

/// How many settings and events a sheet has, and whether it begins with ticks
/// until Ready.
struct Size {
    settings: u32,
    events: u32,
    ready: bool,
}

/// A whole sheet of any size.
pub fn whole(random: &mut Random) -> Sheet {
    let settings = match random.below(8) {
        0 => 0,
        1 => random.between(255, 256),
        2 => random.between(0, 256),
        _ => random.between(0, 12),
    };
    let most = most_events(settings);
    let (least, largest, ready) = random.weighted(&[
        (10, (0, 20, false)),
        (10, (20, 600, false)),
        (4, (600, 3_000, false)),
        (3, (6_000, most, true)),
        (1, (most, most, false)),
    ]);
    let events = random.between(least, largest);
    let size = Size {
        settings,
        events,
        ready,
    };
    sheet_of_size(random, &size)
}

/// A sheet to be damaged: it has at least one setting and one event.
pub fn small(random: &mut Random) -> Sheet {
    let few = random.between(1, 12);
    let size = Size {
        settings: random.pick(&[1, few, few, 256]),
        events: random.between(1, 60),
        ready: false,
    };
    sheet_of_size(random, &size)
}

fn most_events(settings: u32) -> u32 {
    let rest = LONGEST_SHEET - length(settings as usize, 0);
    (rest / BYTES_PER_EVENT) as u32
}

/// The events of a list of the differ, as many as the sheet is to have. The
/// list begins with writes, which become the settings. Fields that are no
/// event, and the calls and tables among the strays, which are all refused,
/// leave the unit and are left out.
fn sheet_of_size(random: &mut Random, size: &Size) -> Sheet {
    let mut coverage = Coverage::empty();
    let make = Unit::fresh();
    let name = Name {
        seed: random.word(),
        long: false,
    };
    let mut list = List::fresh(&make, name, &mut coverage);
    list.keep_record();
    play(&mut list, size).expect("the model does not differ from itself");
    let record = list.into_record();
    let mut events = record.iter().filter_map(|sent| sent.event());
    let settings = events.by_ref().take(size.settings as usize);
    let settings = settings.map(|event| match event {
        Event::Write { address, value } => (address, value),
        _ => unreachable!("the list begins with writes"),
    });
    let settings = settings.collect();
    Sheet::of(settings, events.take(size.events as usize).collect())
}

fn play(list: &mut List<Unit>, size: &Size) -> Step {
    for _ in 0..size.settings {
        let any = list.random.byte();
        let address = draw::any_address(&mut list.random);
        let address = list.random.pick(&[address, address, address, any]);
        let value = draw::any_value(&mut list.random, address);
        list.write(address, value)?;
    }
    other_habits(list)?;
    if size.ready {
        become_ready(list)?;
    }
    // A few more, since not all that is sent is an event.
    let length = u64::from(size.settings + size.events + size.events / 4);
    mix_events(list, length + 100)
}
