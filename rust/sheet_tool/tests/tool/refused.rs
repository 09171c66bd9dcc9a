//! Sheets that are refused: the message has the number and its meaning, and
//! nothing is written.

use crate::files::{absent, present, read};
use crate::process::{sheet, sheet_with, Outcome};
use std::path::Path;

/// A name for each sheet, its bytes, and the number it is refused with.
fn sheets() -> Vec<(&'static str, Vec<u8>, u8)> {
    let event = |kind, a, b, unused, word: i32| {
        let fields = [0, 0, 1, 0, kind, a, b, unused];
        [&fields[..], &word.to_le_bytes()].concat()
    };
    vec![
        ("too-long", vec![0; 65_536], 9),
        ("far-too-long", vec![0; 1_000_000], 9),
        ("settings", vec![1, 1, 0, 0], 9),
        ("nothing", vec![], 10),
        ("half-an-event", vec![0, 0, 1, 0, 0, 0, 0, 0], 10),
        ("one-byte-more", vec![0, 0, 0, 0, 0], 11),
        ("kind", event(5, 0, 0, 0, 0), 12),
        ("lock", event(0, 0, 2, 0, 0), 12),
        ("unused", event(2, 0, 0, 1, 0), 12),
        ("word", event(3, 0, 0, 0, 1), 12),
        ("finer-b", event(4, 1, 1, 0, 0), 12),
        ("finer-unused", event(4, 1, 0, 1, 0), 12),
        ("finer-over", event(4, 1, 0, 0, 32_768), 12),
        ("finer-under", event(4, 1, 0, 0, -32_769), 12),
        ("finer-far-over", event(4, 1, 0, 0, 65_536), 12),
        ("finer-least-word", event(4, 1, 0, 0, i32::MIN), 12),
    ]
}

fn meaning(number: u8) -> &'static str {
    match number {
        9 => "sheet over 65,535 bytes, or a settings count over 256",
        10 => "sheet ends early",
        11 => "bytes after the events",
        12 => {
            "kind over 4, lock over 1, offset word outside -32,768 to 32,767, or unused field not 0"
        }
        _ => unreachable!(),
    }
}

#[test]
fn a_refused_sheet_is_told_and_nothing_is_written() {
    for (name, bytes, number) in sheets() {
        let file = present(&format!("refused-{}.sheet", name), &bytes);
        let refused = format!("sheet refused with {}: {}", number, meaning(number));
        let of_file = Outcome::failed(1, &format!("{}: {}", file, refused));
        let of_input = Outcome::failed(1, &format!("standard input: {}", refused));
        for command in ["show", "run", "page", "picture"] {
            assert_eq!(sheet(&[command, &file]), of_file);
            assert_eq!(sheet_with(&[command], &bytes), of_input);
            assert_eq!(sheet_with(&[command, "-"], &bytes), of_input);

            let kept = present("refused-kept", b"as before");
            assert_eq!(sheet(&[command, &file, "-o", &kept]), of_file);
            assert_eq!(read(&kept), b"as before");

            let none = absent("refused-none");
            assert_eq!(sheet(&[command, "-o", &none, &file]), of_file);
            assert!(!Path::new(&none).exists());
        }
    }
}

#[test]
fn a_text_at_fault_is_told_and_nothing_is_written() {
    let file = present("refused-text.txt", b"hit\n\nhit 1\n");
    let kept = present("refused-text-kept", b"as before");
    let reason = "3: \"1\" is one field too many for hit";
    let failed = Outcome::failed(1, &format!("{}:{}", file, reason));
    for command in ["make", "show", "run", "page", "picture"] {
        assert_eq!(sheet(&[command, &file]), failed);
        assert_eq!(sheet(&[command, &file, "-o", &kept]), failed);
    }
    assert_eq!(read(&kept), b"as before");
    let failed = Outcome::failed(1, &format!("standard input:{}", reason));
    assert_eq!(sheet_with(&["make"], b"hit\n\nhit 1\n"), failed);
    assert_eq!(sheet_with(&["run", "--text"], b"hit\n\nhit 1\n"), failed);
}
