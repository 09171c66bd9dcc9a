//! #106 in sheets, run by the real controller and by both models: what each word
//! of 16 bits does under the fresh limits, words that no sheet may have, and
//! sheets of the old kind beside those of 32 times their bytes.

use model::{sheet_of, Event, BYTES_PER_RECORD, SOAK_TICKS};
use shared::random::Random;
use sheets_differ::runner::{Functions, MODEL, TUNED_MODEL};
use sheets_differ::sheet::whole;

const SEED: u64 = 7;
/// How many random sheets are tried.
const SHEETS: u32 = 200;
/// An output that has room for the records of every sheet.
const ROOM: usize = 40_000;
/// 32 times the fresh limits, 31 and 25.
const REJECT: u16 = 992;
const QUALIFICATION: u16 = 800;
/// So many times eight words are in a sheet.
const EIGHTS: usize = 40;

fn runners() -> Vec<Functions> {
    vec![
        MODEL,
        TUNED_MODEL,
        #[cfg(feature = "sheets")]
        sheets_differ::runner::CONTROLLER,
    ]
}

/// The records of a sheet that must run.
fn records(runner: &Functions, sheet: &[u8]) -> Vec<u8> {
    assert_eq!((runner.check)(sheet, ROOM), 0, "{}", runner.name);
    let mut output = vec![0; ROOM];
    let length = (runner.run)(sheet, &mut output);
    output.truncate(length);
    output
}

/// The same measurement of the old kind of each input.
fn all(offset: i8) -> impl Iterator<Item = Event> {
    (1..=8).map(move |input| Event::Measurement { input, offset })
}

/// A word for each input.
fn each(words: &[i16]) -> impl Iterator<Item = Event> + '_ {
    let measured = (1..=8).zip(words);
    measured.map(|(input, &offset)| Event::FinerMeasurement { input, offset })
}

fn clean_ticks(count: u8) -> impl Iterator<Item = Event> {
    let (mask, lock, sample) = (0, true, 0);
    (0..count).map(move |_| Event::Tick { mask, lock, sample })
}

/// The inputs whose words are of a magnitude up to this one.
fn up_to(limit: u16, words: &[i16]) -> u8 {
    let bits = words.iter().rev();
    bits.fold(0, |mask, word| {
        mask << 1 | u8::from(word.unsigned_abs() <= limit)
    })
}

/// Eight words, first with all alarms set, then with all inputs qualified: the
/// soak shows which of them clear an alarm, the first tick which of them set one.
fn words_judged(words: &[i16]) -> (Vec<Event>, [(usize, u8); 2]) {
    let mut events = Vec::new();
    events.extend(all(-128).chain(each(words)).chain(clean_ticks(SOAK_TICKS)));
    let cleared = (events.len() - 1, up_to(QUALIFICATION, words));
    events.extend(all(0).chain(clean_ticks(SOAK_TICKS)));
    events.extend(each(words).chain(clean_ticks(1)));
    let left = (events.len() - 1, up_to(REJECT, words));
    (events, [cleared, left])
}

#[test]
fn each_word_of_16_bits() {
    let words: Vec<i16> = (i16::MIN..=i16::MAX).collect();
    for words in words.chunks(8 * EIGHTS) {
        let (mut events, mut expected) = (Vec::new(), Vec::new());
        for eight in words.chunks(8) {
            let (more, masks) = words_judged(eight);
            let before = events.len();
            expected.extend(masks.map(|(index, mask)| (before + index, mask)));
            events.extend(more);
        }
        let sheet = sheet_of(&[], &events);
        for runner in runners() {
            let records = records(&runner, &sheet);
            for &(index, mask) in &expected {
                let qualified = records[BYTES_PER_RECORD * index + 2];
                assert_eq!(qualified, mask, "{}: {:?}", runner.name, words);
            }
        }
    }
}

/// "a word outside −32,768 to 32,767 gives 12": all that are near, some that are
/// far.
#[test]
fn other_words() {
    let far = [i32::MAX, i32::MIN, 1 << 24, -(1 << 24), 256 << 16 | 800];
    let near = (32_768..=70_000).chain(-70_000..=-32_769);
    for word in near.chain(far) {
        let event = [&[4, 1, 0, 0][..], &word.to_le_bytes()].concat();
        let sheet = [&[0, 0, 1, 0][..], &event].concat();
        for runner in runners() {
            assert_eq!((runner.check)(&sheet, 4), 12, "{}: {}", runner.name, word);
            assert_eq!((runner.run)(&sheet, &mut [0; 4]), 0);
        }
    }
}

/// "A measurement of the old kind means 32 times its byte"
#[test]
fn old_sheets_give_the_records_of_finer_ones() {
    let mut random = Random::new(SEED);
    let mut measured = 0;
    for _ in 0..SHEETS {
        let old = whole(&mut random);
        let finer = old.events.iter().map(|event| match *event {
            Event::Measurement { input, offset } => {
                measured += 1;
                let offset = 32 * i16::from(offset);
                Event::FinerMeasurement { input, offset }
            }
            other => other,
        });
        let finer = sheet_of(&old.settings, &finer.collect::<Vec<_>>());
        for runner in runners() {
            let (old, finer) = (records(&runner, &old.bytes), records(&runner, &finer));
            assert!(old == finer, "{}", runner.name);
        }
    }
    assert!(measured > 1_000, "{}", measured);
}
