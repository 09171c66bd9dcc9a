//! The faults: each alters the number of a check, or what a run writes. Those
//! of prints are in `prints`.

use model::{check, print, run, LONGEST_SHEET};
use sheets_differ::runner::Functions;

pub type Fault = Functions;

pub const NO_FAULT: Fault = Fault {
    name: "none",
    check,
    run,
    print,
};

const fn in_check(name: &'static str, check: fn(&[u8], usize) -> u8) -> Fault {
    Fault {
        name,
        check,
        ..NO_FAULT
    }
}

const fn in_run(name: &'static str, run: fn(&[u8], &mut [u8]) -> usize) -> Fault {
    Fault {
        name,
        run,
        ..NO_FAULT
    }
}

/// The number without the question of the output.
fn number(sheet: &[u8]) -> u8 {
    check(sheet, usize::MAX)
}

fn settings_count(sheet: &[u8]) -> usize {
    let byte = |place| sheet.get(place).map_or(0, |&byte| usize::from(byte));
    byte(0) + 256 * byte(1)
}

fn written(sheet: &[u8], output: &mut [u8], alter: impl Fn(&mut [u8])) -> usize {
    let count = run(sheet, output);
    alter(&mut output[..count]);
    count
}

/// Runs the sheet with each event's bytes altered before.
fn with_events(sheet: &[u8], alter: impl Fn(&mut [u8])) -> Vec<u8> {
    let mut sheet = sheet.to_vec();
    let start = (4 + 2 * settings_count(&sheet)).min(sheet.len());
    sheet[start..].chunks_exact_mut(8).for_each(alter);
    sheet
}

fn without_byte_3(sheet: &[u8]) -> Vec<u8> {
    with_events(sheet, |event| event[3] = 0)
}

fn with_small_locks(sheet: &[u8]) -> Vec<u8> {
    with_events(sheet, |event| {
        if event[0] == 0 {
            event[2] &= 1;
        }
    })
}

fn with_plain_hits(sheet: &[u8]) -> Vec<u8> {
    with_events(sheet, |event| {
        if event[0] == 2 {
            event[1..3].fill(0);
        }
    })
}

/// The sheet with the bytes of each finer measurement altered.
fn with_kind_4(sheet: &[u8], alter: impl Fn(&mut [u8])) -> Vec<u8> {
    with_events(sheet, |event| {
        if event[0] == 4 {
            alter(event);
        }
    })
}

/// The sheet with another word in each finer measurement.
fn with_words(sheet: &[u8], other: impl Fn(i32) -> i32) -> Vec<u8> {
    with_kind_4(sheet, |event| {
        let word = i32::from_le_bytes([event[4], event[5], event[6], event[7]]);
        event[4..].copy_from_slice(&other(word).to_le_bytes());
    })
}

/// The sheet with one word in place of another in its finer measurements.
fn with_word_as(sheet: &[u8], word: i32, other: i32) -> Vec<u8> {
    with_words(sheet, |found| if found == word { other } else { found })
}

/// The sheet with each old measurement as a finer one of so many times its byte.
fn with_old_kind_as(sheet: &[u8], times: i32) -> Vec<u8> {
    with_events(sheet, |event| {
        if event[0] == 1 && event[3..] == [0; 5] {
            let word = times * i32::from(event[2] as i8);
            event[0] = 4;
            event[2] = 0;
            event[4..].copy_from_slice(&word.to_le_bytes());
        }
    })
}

/// Runs the sheet with another offset in each finer measurement.
fn run_with_offsets(sheet: &[u8], output: &mut [u8], other: fn(i16) -> i16) -> usize {
    let other = |word| i16::try_from(word).map_or(word, |offset| other(offset).into());
    run(&with_words(sheet, other), output)
}

fn with_word_high_byte_first(sheet: &[u8]) -> Vec<u8> {
    with_events(sheet, |event| event[4..].reverse())
}

/// A sheet of 257 settings with the last of them left out.
fn with_256_of_257(sheet: &[u8]) -> Vec<u8> {
    let mut sheet = sheet.to_vec();
    if settings_count(&sheet) == 257 && sheet.len() > 516 {
        sheet[..2].copy_from_slice(&[0, 1]);
        sheet.drain(514..516);
    }
    sheet
}

/// A sheet whose counts are written the other way round.
fn with_counts_swapped(sheet: &[u8]) -> Vec<u8> {
    let mut sheet = sheet.to_vec();
    if sheet.len() > 1 {
        sheet.swap(0, 1);
    }
    sheet
}

pub static FAULTS: &[Fault] = &[
    in_check("10 for 11", |sheet, room| match check(sheet, room) {
        11 => 10,
        number => number,
    }),
    in_check("11 for 10", |sheet, room| match check(sheet, room) {
        10 => 11,
        number => number,
    }),
    in_check("13 before 9 to 12", |sheet, room| {
        if room < 4 {
            check(sheet, room).max(13)
        } else {
            check(sheet, room)
        }
    }),
    in_check("13 for an output of the very length", |sheet, room| {
        check(sheet, room.saturating_sub(1))
    }),
    in_check("an output one byte too short taken", |sheet, room| {
        check(sheet, room.saturating_add(1))
    }),
    in_check("outputs counted by whole records", |sheet, room| {
        check(sheet, (room / 4).saturating_add(1).saturating_mul(4))
    }),
    in_check("10 before 9", |sheet, room| match check(sheet, room) {
        9 if sheet.len() < 520 => 10,
        number => number,
    }),
    in_check("12 before 11", |sheet, room| match check(sheet, room) {
        11 if number(&sheet[..sheet.len() - 1]) == 12 => 12,
        number => number,
    }),
    in_check("9 for one byte ff", |sheet, room| match sheet {
        [0xff] => 9,
        _ => check(sheet, room),
    }),
    in_check("11 for 65,536 bytes", |sheet, room| {
        if sheet.len() == LONGEST_SHEET + 1 {
            11
        } else {
            check(sheet, room)
        }
    }),
    in_check("9 for 65,535 bytes", |sheet, room| {
        if sheet.len() == LONGEST_SHEET {
            9
        } else {
            check(sheet, room)
        }
    }),
    in_check("9 for 65,534 bytes", |sheet, room| {
        if sheet.len() == LONGEST_SHEET - 1 {
            9
        } else {
            check(sheet, room)
        }
    }),
    in_check("a length in 16 bits", |sheet, room| {
        check(&sheet[..sheet.len() % 65_536], room)
    }),
    in_check("9 for 256 settings", |sheet, room| {
        if settings_count(sheet) == 256 {
            9
        } else {
            check(sheet, room)
        }
    }),
    in_check("257 settings let through", |sheet, room| {
        check(&with_256_of_257(sheet), room)
    }),
    in_check("an empty sheet taken", |sheet, room| {
        if sheet.is_empty() {
            0
        } else {
            check(sheet, room)
        }
    }),
    in_check("settings count high byte first", |sheet, room| {
        check(&with_counts_swapped(sheet), room)
    }),
    in_check("byte 3 not looked at", |sheet, room| {
        check(&without_byte_3(sheet), room)
    }),
    in_check("lock 3 taken as 1", |sheet, room| {
        check(&with_small_locks(sheet), room)
    }),
    in_check("a and b of a Hit not looked at", |sheet, room| {
        check(&with_plain_hits(sheet), room)
    }),
    in_check("kind 5 let through", |sheet, room| {
        let clean_ticks = with_events(sheet, |event| {
            if event[0] == 5 {
                event.fill(0);
            }
        });
        check(&clean_ticks, room)
    }),
    in_check("12 for each finer measurement", |sheet, room| {
        check(&with_kind_4(sheet, |event| event[0] = 5), room)
    }),
    in_check("12 for a finer measurement of no input", |sheet, room| {
        let other = with_kind_4(sheet, |event| {
            if !(1..=8).contains(&event[1]) {
                event[0] = 5;
            }
        });
        check(&other, room)
    }),
    in_check("b 1 of a finer measurement let through", |sheet, room| {
        let other = with_kind_4(sheet, |event| {
            if event[2] == 1 {
                event[2] = 0;
            }
        });
        check(&other, room)
    }),
    in_check(
        "byte 3 of a finer measurement let through",
        |sheet, room| check(&with_kind_4(sheet, |event| event[3] = 0), room),
    ),
    in_check("the word 32,768 let through", |sheet, room| {
        check(&with_word_as(sheet, 32_768, 0), room)
    }),
    in_check("the word -32,769 let through", |sheet, room| {
        check(&with_word_as(sheet, -32_769, 0), room)
    }),
    in_check("the word's upper half dropped", |sheet, room| {
        check(&with_words(sheet, |word| i32::from(word as i16)), room)
    }),
    in_check("the word 32,767 refused", |sheet, room| {
        check(&with_word_as(sheet, 32_767, 32_768), room)
    }),
    in_check("the word -32,768 refused", |sheet, room| {
        check(&with_word_as(sheet, -32_768, -32_769), room)
    }),
    in_check("words below 0 refused", |sheet, room| {
        let other = with_words(sheet, |word| match word {
            i32::MIN..=-1 => i32::MIN,
            _ => word,
        });
        check(&other, room)
    }),
    in_check("a refused event is the sheet's fault", |sheet, room| {
        let faulty = |record: &model::Record| matches!(record[0], 6 | 7);
        match model::records(sheet) {
            Ok(records) if records.iter().any(faulty) => 12,
            _ => check(sheet, room),
        }
    }),
    in_run("a record one place off", |sheet, output| {
        written(sheet, output, |bytes| {
            if bytes.len() > 4 {
                bytes.rotate_right(4);
            }
        })
    }),
    in_run("0x48 and 0x46 swapped", |sheet, output| {
        written(sheet, output, |bytes| {
            bytes.chunks_mut(4).for_each(|record| record.swap(1, 2))
        })
    }),
    in_run("the refusal last", |sheet, output| {
        written(sheet, output, |bytes| {
            bytes.chunks_mut(4).for_each(|record| record.rotate_left(1))
        })
    }),
    in_run("a byte after the front part changed", |sheet, output| {
        let count = run(sheet, output);
        if let Some(byte) = output.get_mut(count) {
            *byte ^= 0x01;
        }
        count
    }),
    in_run("the output's last byte changed", |sheet, output| {
        let count = run(sheet, output);
        if let Some(byte) = output[count..].last_mut() {
            *byte = !*byte;
        }
        count
    }),
    in_run("the output's first byte changed", |sheet, output| {
        let count = run(sheet, output);
        if count > 0 {
            output[0] ^= 0x80;
        }
        count
    }),
    in_run("written when the output is too short", |sheet, output| {
        if check(sheet, output.len()) == 13 {
            output.fill(0);
        }
        run(sheet, output)
    }),
    in_run("records counted, not bytes", |sheet, output| {
        run(sheet, output) / 4
    }),
    in_run("the whole output handed back", |sheet, output| {
        run(sheet, output);
        output.len()
    }),
    in_run("a refused event ends the sheet", |sheet, output| {
        let before = output.to_vec();
        let count = run(sheet, output);
        let records = output[..count].chunks(4);
        let refused = records.enumerate().find(|(_, record)| record[0] != 0);
        let end = refused.map_or(count, |(index, _)| 4 * index + 4);
        output[end..].copy_from_slice(&before[end..]);
        end
    }),
    in_run("no record of a setting", |sheet, output| {
        let before = output.to_vec();
        let count = run(sheet, output);
        let settings = (4 * settings_count(sheet)).min(count);
        output.copy_within(settings..count, 0);
        output[count - settings..].copy_from_slice(&before[count - settings..]);
        count - settings
    }),
    in_run("the word high byte first", |sheet, output| {
        run(&with_word_high_byte_first(sheet), output)
    }),
    in_run("31 times for the old kind", |sheet, output| {
        run(&with_old_kind_as(sheet, 31), output)
    }),
    in_run("the old kind in finer steps", |sheet, output| {
        run(&with_old_kind_as(sheet, 1), output)
    }),
    in_run("each finer offset taken as 0", |sheet, output| {
        run_with_offsets(sheet, output, |_| 0)
    }),
    in_run("a finer offset in steps of 0.5 ppm", |sheet, output| {
        run_with_offsets(sheet, output, |offset| offset / 32 * 32)
    }),
    in_run("a finer offset below 0 taken as 0", |sheet, output| {
        run_with_offsets(sheet, output, |offset| offset.max(0))
    }),
    in_run(
        "an output above 32,767 bytes not filled",
        |sheet, output| {
            let before = output.to_vec();
            let count = run(sheet, output);
            let end = count.min(32_767);
            output[end..].copy_from_slice(&before[end..]);
            count
        },
    ),
];
