//! What the bindings say of the documents' numbers is what the model reads in
//! them, each for itself.

use controller::{FINER_MEASUREMENT, HIT, MEASUREMENT, STATES, TICK, WRITE};
use model::{Event, State};

#[test]
fn the_names_of_the_states() {
    assert_eq!(State::ALL.map(State::name), STATES);
    assert_eq!(State::ALL.map(|state| state as u8), [0, 1, 2, 3, 4, 5]);
}

#[test]
fn the_kinds_of_events() {
    let events = [
        Event::from_fields(TICK, 1, 1, 1),
        Event::from_fields(MEASUREMENT, 1, 1, 0),
        Event::from_fields(HIT, 0, 0, 0),
        Event::from_fields(WRITE, 1, 1, 0),
    ];
    assert!(matches!(
        events,
        [
            Some(Event::Tick { .. }),
            Some(Event::Measurement { .. }),
            Some(Event::Hit),
            Some(Event::Write { .. })
        ]
    ));
}

/// The offset is in the word, and b is 0.
#[test]
fn the_kind_of_a_finer_measurement() {
    let event = |b, word| Event::from_fields(FINER_MEASUREMENT, 1, b, word);
    assert!(event(0, -32_768).is_some() && event(0, 32_767).is_some());
    assert!(event(0, -32_769).is_none() && event(0, 32_768).is_none());
    assert!(event(1, 0).is_none());
}

#[test]
fn the_sizes_of_a_sheet() {
    assert_eq!(sheets::LONGEST_SHEET, model::LONGEST_SHEET);
    assert_eq!(sheets::MOST_SETTINGS, model::MOST_SETTINGS);
    assert_eq!(sheets::BYTES_PER_COUNT, model::BYTES_PER_COUNT);
    assert_eq!(sheets::BYTES_PER_SETTING, model::BYTES_PER_SETTING);
    assert_eq!(sheets::BYTES_PER_EVENT, model::BYTES_PER_EVENT);
    assert_eq!(sheets::BYTES_PER_RECORD, model::BYTES_PER_RECORD);
}

#[test]
fn the_sizes_of_a_page() {
    assert_eq!(sheets::LINES_PER_PAGE, model::LINES_PER_PAGE);
    assert_eq!(sheets::BYTES_PER_PAGE, model::BYTES_PER_PAGE);
    for records in 0..=8_383 {
        assert_eq!(sheets::pages_of(records), model::pages_of(records));
    }
}
