//! #101: the lines and pages of a run's records, the two outputs, and the
//! refusals. The tuned model's print is held to the same.

use model::{pages, pages_of, sheet_of, Event, Record, State};

type Print = fn(&[u8], &mut [u8], &mut [u8]) -> u8;

const PRINTS: [(&str, Print); 2] = [("plain", model::print), ("tuned", model::fast::print)];

const TICK: Event = Event::Tick {
    mask: 0,
    lock: true,
    sample: 0,
};
const BLANK: &str = "                           ";
/// What the bytes of both outputs are before.
const BEFORE: u8 = 0xa5;

/// Settings and events in each sheet of these tests: so many records.
const COUNTS: [(usize, usize); 8] = [
    (0, 0),
    (0, 1),
    (1, 48),
    (49, 1),
    (50, 1),
    (0, 100),
    (1, 8_191),
    (256, 8_127),
];

/// A first lock, with a refused setting now and then.
fn sheet(settings: usize, events: usize) -> Vec<u8> {
    let settings = [(0x40, 1), (0x50, 1)].into_iter().cycle().take(settings);
    let measured = Event::Measurement {
        input: 1,
        offset: 0,
    };
    let mut events = vec![TICK; events];
    if let Some(first) = events.first_mut() {
        *first = measured;
    }
    sheet_of(&settings.collect::<Vec<_>>(), &events)
}

/// What each print gives for outputs of these lengths: the number, and both
/// outputs after.
fn printed(sheet: &[u8], records_len: usize, pages_len: usize) -> (u8, Vec<u8>, Vec<u8>) {
    let answers = PRINTS.map(|(_, print)| {
        let mut records = vec![BEFORE; records_len];
        let mut pages = vec![BEFORE; pages_len];
        let number = print(sheet, &mut records, &mut pages);
        (number, records, pages)
    });
    let [plain, tuned] = answers;
    assert!(plain == tuned, "the tuned model prints otherwise");
    plain
}

/// Refused with this number, and both outputs are as they were.
fn refuse(sheet: &[u8], records_len: usize, pages_len: usize, number: u8) {
    let expected = (number, vec![BEFORE; records_len], vec![BEFORE; pages_len]);
    let found = printed(sheet, records_len, pages_len);
    assert!(found == expected, "{} and not {}", found.0, number);
}

/// The front of an output of this length is written, the rest as it was.
fn front(written: &[u8], length: usize) -> Vec<u8> {
    let mut output = written.to_vec();
    output.resize(length, BEFORE);
    output
}

/// One page: these lines, and blank ones after them.
fn page(lines: &[&str]) -> String {
    let blanks = std::iter::repeat(&BLANK);
    let lines = lines.iter().chain(blanks).take(50);
    lines.map(|line| format!("{}\n", line)).collect()
}

/// How long the two outputs must be for so many records.
fn lengths(records: usize) -> (usize, usize) {
    (4 * records, 1_400 * pages_of(records))
}

#[test]
fn the_page_of_document_01s_example() {
    let sheet = sheet_of(
        &[(0x40, 1)],
        &[
            Event::Tick {
                mask: 0,
                lock: false,
                sample: 0,
            },
            Event::Hit,
        ],
    );
    let page = page(&[
        "    0 Free Run      0  0 03",
        "    1 Free Run      0  0 03",
        "    2 Free Run      0  5 03",
    ]);
    let records = [0, 0, 0, 3, 0, 0, 0, 3, 5, 0, 0, 3];
    let expected = (0, records.to_vec(), page.into_bytes());
    assert_eq!(printed(&sheet, 12, 1_400), expected);
}

/// The pages and their lines, for so many records: full, not full, none.
#[test]
fn a_page_has_50_lines_and_the_last_is_filled() {
    let pages = COUNTS.map(|(settings, events)| pages_of(settings + events));
    assert_eq!(pages, [0, 1, 1, 1, 2, 2, 164, 168]);
    for (settings, events) in COUNTS {
        let records = settings + events;
        let (records_len, pages_len) = lengths(records);
        let (number, _, text) = printed(&sheet(settings, events), records_len, pages_len);
        assert_eq!((number, text.len()), (0, 1_400 * pages_of(records)));
        let text = String::from_utf8(text).expect("letters");
        assert_eq!(text.matches('\n').count(), 50 * pages_of(records));
        for (index, line) in text.lines().enumerate() {
            assert_eq!(line.len(), 27);
            if index < records {
                assert_eq!(line[..6], format!("{:>5} ", index));
            } else {
                assert_eq!(line, BLANK);
            }
        }
    }
}

/// The most records that a sheet gives: the last lines, on the last page.
#[test]
fn the_most_records() {
    let (_, _, text) = printed(&sheet(256, 8_127), 33_532, 235_200);
    let text = String::from_utf8(text).expect("letters");
    let lines: Vec<&str> = text.lines().collect();
    assert_eq!(lines.len(), 8_400);
    assert_eq!(lines[8_382], " 8382 Locked        1  0 04");
    assert_eq!(lines[8_383..], [BLANK; 17]);
}

/// The lines of a first lock: the index over the whole run, each column in its
/// place.
#[test]
fn the_lines_of_a_run() {
    let (_, _, text) = printed(&sheet(2, 998), 4_000, 28_000);
    let text = String::from_utf8(text).expect("letters");
    let lines: Vec<&str> = text.lines().collect();
    for (index, line) in [
        (0, "    0 Free Run      0  0 03"),
        (1, "    1 Free Run      0  1 03"),
        (2, "    2 Free Run      0  0 03"),
        (80, "   80 Free Run      0  0 03"),
        (81, "   81 Pre-locked    1  0 02"),
        (96, "   96 Pre-locked    1  0 02"),
        (97, "   97 Locked        1  0 00"),
        (99, "   99 Locked        1  0 00"),
        (100, "  100 Locked        1  0 00"),
        (999, "  999 Locked        1  0 00"),
    ] {
        assert_eq!(lines[index], line);
    }
}

/// Names to the left, selected and refusal to the right, 0x49 in lower case; of
/// the record's third byte nothing is to be seen.
#[test]
fn the_columns_of_a_record() {
    let records: [Record; 8] = [
        [0, 0x00, 0x00, 0x03],
        [8, 0x10, 0xff, 0x0f],
        [0, 0x21, 0x01, 0x02],
        [1, 0x38, 0x80, 0x0c],
        [0, 0x44, 0x08, 0x0e],
        [7, 0x57, 0x40, 0x0a],
        [0, 0x09, 0x00, 0x0b],
        [5, 0x30, 0x12, 0xf0],
    ];
    let page = page(&[
        "    0 Free Run      0  0 03",
        "    1 Holdover      0  8 0f",
        "    2 Pre-locked    1  0 02",
        "    3 Locked        8  1 0c",
        "    4 Loss of lock  4  0 0e",
        "    5 Pre-locked 2  7  7 0a",
        "    6 Free Run      9  0 0b",
        "    7 Locked        0  5 f0",
    ]);
    assert_eq!(pages(&records), page);
    assert_eq!(pages(&[]), "");
    for state in State::ALL {
        let text = pages(&[[0, 16 * state as u8, 0, 0]]);
        assert_eq!(text[6..18].trim_end(), state.name());
        assert!(!text[6..18].starts_with(' '));
    }
}

/// The records are those of a run; what lies behind records and pages stays.
#[test]
fn both_outputs_have_their_front_written() {
    for (settings, events) in COUNTS {
        let sheet = sheet(settings, events);
        let records = model::records(&sheet).expect("a sheet that runs");
        let (records_len, pages_len) = lengths(records.len());
        let (records, text) = (records.concat(), pages(&records).into_bytes());
        for more in [0, 1, 3, 28, 1_400] {
            for (of_records, of_pages) in [(more, 0), (0, more), (more, more)] {
                let (of_records, of_pages) = (records_len + of_records, pages_len + of_pages);
                let expected = (0, front(&records, of_records), front(&text, of_pages));
                assert!(printed(&sheet, of_records, of_pages) == expected);
            }
        }
    }
}

#[test]
fn number_13_for_either_output() {
    for (settings, events) in COUNTS {
        let sheet = sheet(settings, events);
        let (records_len, pages_len) = lengths(settings + events);
        if settings + events == 0 {
            assert_eq!(printed(&sheet, 0, 0), (0, vec![], vec![]));
            continue;
        }
        for enough in [0, 1, 5_000] {
            for short in [0, records_len - 4, records_len - 1] {
                refuse(&sheet, short, pages_len + enough, 13);
            }
            for short in [0, pages_len - 1_400, pages_len - 28, pages_len - 1] {
                refuse(&sheet, records_len + enough, short, 13);
            }
        }
        refuse(&sheet, 0, 0, 13);
        refuse(&sheet, records_len - 1, pages_len - 1, 13);
    }
}

/// "Checked in number order": 9 to 12 are told of any outputs, also of none.
#[test]
fn numbers_9_to_12_come_before_13() {
    let good = sheet(2, 60);
    let mut bad_kind = good.clone();
    bad_kind[8] = 5;
    let longer = [&bad_kind[..], &[0]].concat();
    let shorter = &bad_kind[..bad_kind.len() - 1];
    let too_long = vec![0; 65_536];
    let too_many = [&[1, 1], &good[2..]].concat();
    for (sheet, number) in [
        (&too_long[..], 9),
        (&too_many, 9),
        (shorter, 10),
        (&[], 10),
        (&longer, 11),
        (&bad_kind, 12),
    ] {
        for records_len in [0, 247, 248, 5_000] {
            for pages_len in [0, 2_799, 2_800, 5_000] {
                refuse(sheet, records_len, pages_len, number);
            }
        }
    }
}
