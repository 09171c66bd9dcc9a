//! Every fault of a text, with its line and its reason.

use sheet_tool::make::{make, Fault};

fn fault(text: &[u8]) -> (usize, String) {
    let Fault { line, reason } = make(text).expect_err("a fault");
    (line, reason)
}

#[track_caller]
fn check(text: &str, line: usize, reason: &str) {
    assert_eq!(
        fault(text.as_bytes()),
        (line, reason.to_string()),
        "{}",
        text
    );
}

#[test]
fn unknown_words() {
    let words = "a statement is table, setting, tick, measurement, hit, write, bucket, assign, \
                 week, windows, repeat or end";
    check(
        "tock 0 0 0",
        1,
        &format!("unknown word \"tock\"; {}", words),
    );
    check(
        "\n# x\nTick 0 0 0",
        3,
        &format!("unknown word \"Tick\"; {}", words),
    );
    check("3 x tock", 1, &format!("unknown word \"tock\"; {}", words));
    check("3 x 3 x hit", 1, &format!("unknown word \"3\"; {}", words));
    check("x hit", 1, &format!("unknown word \"x\"; {}", words));
    check(
        "hit\u{1b}[2J",
        1,
        &format!("unknown word \"hit\\u{{1b}}[2J\"; {}", words),
    );
    let long = "m".repeat(100_000);
    let short = "m".repeat(40) + "...";
    check(&long, 1, &format!("unknown word \"{}\"; {}", short, words));
}

#[test]
fn missing_and_extra_fields() {
    check("tick 0x00 1", 1, "tick needs SAMPLE");
    check("tick", 1, "tick needs MASK");
    check("tick 0 # 1 2", 1, "tick needs LOCK");
    check("setting control", 1, "setting needs VALUE");
    check("setting", 1, "setting needs ADDRESS");
    check("measurement 1", 1, "measurement needs OFFSET");
    check("measurement", 1, "measurement needs INPUT");
    check("write", 1, "write needs ADDRESS");
    check("write 0x40", 1, "write needs VALUE");
    check("repeat", 1, "repeat needs COUNT");
    check("tick 0 0 0 9", 1, "\"9\" is one field too many for tick");
    check("hit 1", 1, "\"1\" is one field too many for hit");
    for text in ["measurement 1 2 ppm 3", "measurement 1 2 steps 3"] {
        check(text, 1, "\"3\" is one field too many for measurement");
    }
    check(
        "setting 1 2 3",
        1,
        "\"3\" is one field too many for setting",
    );
    check("write 1 2 3", 1, "\"3\" is one field too many for write");
    check("repeat 2 x", 1, "\"x\" is one field too many for repeat");
    check("repeat 2\nend 2", 2, "\"2\" is one field too many for end");
}

#[test]
fn numbers_that_do_not_fit() {
    check("tick 256 0 0", 1, "MASK is 0 to 255, not 256");
    check("tick -1 0 0", 1, "MASK is 0 to 255, not -1");
    check("tick 0 2 0", 1, "LOCK is 0 to 1, not 2");
    check(
        "tick 0 0 2147483648",
        1,
        "SAMPLE is -2147483648 to 2147483647, not 2147483648",
    );
    check(
        "tick 0 0 -0x80000001",
        1,
        "SAMPLE is -2147483648 to 2147483647, not -0x80000001",
    );
    check("measurement 256 0", 1, "INPUT is 0 to 255, not 256");
    check(
        "measurement 1 128",
        1,
        "OFFSET is -128 to 127, not 128, unless ppm or steps follows it",
    );
    check(
        "measurement 1 -129",
        1,
        "OFFSET is -128 to 127, not -129, unless ppm or steps follows it",
    );
    check("write 0x100 0", 1, "ADDRESS is 0 to 255, not 0x100");
    check("write 0x40 256", 1, "VALUE is 0 to 255, not 256");
    check("setting 0x40 0x1ff", 1, "VALUE is 0 to 255, not 0x1ff");
    check(
        "write 99999999999999999999999999999999999999999 0",
        1,
        "ADDRESS is 0 to 255, not 9999999999999999999999999999999999999999...",
    );
}

#[test]
fn words_that_are_no_numbers() {
    check("tick none 0 0", 1, "MASK is a number, not \"none\"");
    check("tick 0x 0 0", 1, "MASK is a number, not \"0x\"");
    check("tick 0 0 -", 1, "SAMPLE is a number, not \"-\"");
    check("tick 0 0 1_000", 1, "SAMPLE is a number, not \"1_000\"");
    check("tick 0 0 +1", 1, "SAMPLE is a number, not \"+1\"");
    check("write control on", 1, "VALUE is a number, not \"on\"");
    check(
        "write kontrol 1",
        1,
        "ADDRESS is a number or a register's name, not \"kontrol\"",
    );
    check("repeat many", 1, "COUNT is a number, not \"many\"");
}

/// The bounds of an offset, told as it is written.
#[test]
fn offsets_that_do_not_fit() {
    for steps in ["32768", "-32769", "0x8000", "65536"] {
        let reason = format!("OFFSET is -32768 to 32767, not {}", steps);
        check(&format!("measurement 1 {} steps", steps), 1, &reason);
    }
    for ppm in [
        "512",
        "-512.015625",
        "511.984376",
        "511.99",
        "-512.000001",
        "512.0000000000000000001",
        "-1024",
    ] {
        let reason = format!("OFFSET is -512 to 511.984375 ppm, not {}", ppm);
        check(&format!("measurement 1 {} ppm", ppm), 1, &reason);
    }
    let long = "9".repeat(100_000);
    let reason = format!(
        "OFFSET is -512 to 511.984375 ppm, not {}...",
        "9".repeat(40)
    );
    check(&format!("measurement 1 {} ppm", long), 1, &reason);
    check(&format!("measurement 1 {0}.{0} ppm", long), 1, &reason);
}

/// The exact offsets on both sides are told, the lower one first.
#[test]
fn offsets_between_two_steps() {
    for (ppm, neighbours) in [
        ("0.48", "0.46875 and 0.484375"),
        ("-0.48", "-0.484375 and -0.46875"),
        ("0.001", "0 and 0.015625"),
        ("-0.001", "-0.015625 and 0"),
        ("12.51", "12.5 and 12.515625"),
        ("99.99", "99.984375 and 100"),
        ("511.98", "511.96875 and 511.984375"),
        ("-511.99", "-512 and -511.984375"),
        ("0.4843751", "0.484375 and 0.5"),
        ("0.4843749", "0.46875 and 0.484375"),
        ("-007.0000001", "-7.015625 and -7"),
    ] {
        check(
            &format!("measurement 1 {} ppm", ppm),
            1,
            &format!(
                "\"{}\" ppm is no whole number of steps of 1/64 ppm; {} are",
                ppm, neighbours
            ),
        );
    }
    let zeros = "0".repeat(100_000);
    check(
        &format!("\nmeasurement 1 0.5{}1 ppm", zeros),
        2,
        &format!(
            "\"0.5{}...\" ppm is no whole number of steps of 1/64 ppm; 0.5 and 0.515625 are",
            &zeros[..37]
        ),
    );
}

/// The unit of an offset is told before the offset, which it decides on.
#[test]
fn units_that_there_are_not() {
    for unit in ["3", "PPM", "Ppm", "step", "ppb", "%"] {
        let reason = format!("after OFFSET may stand ppm or steps, not \"{}\"", unit);
        for offset in ["1", "0.5", "many", "99999"] {
            check(&format!("measurement 1 {} {}", offset, unit), 1, &reason);
        }
    }
    check(
        "2 x measurement 1 1 p\u{1b}pm",
        1,
        "after OFFSET may stand ppm or steps, not \"p\\u{1b}pm\"",
    );
    check("hit ppm", 1, "\"ppm\" is one field too many for hit");
}

#[test]
fn offsets_that_are_no_numbers() {
    for word in [
        "-",
        ".",
        "-.",
        ".5",
        "-.5",
        "5.",
        "1e3",
        "+1",
        "--1",
        "0x10",
        "1_0",
        "1,5",
        "1.2.3",
        "1.-5",
        "half",
        "NaN",
        "inf",
        "\u{661}",
        "0.\u{661}",
        "0.123456\u{e9}",
        "ppm",
    ] {
        check(
            &format!("measurement 1 {} ppm", word),
            1,
            &format!(
                "OFFSET is a decimal number of ppm, such as -12.5, not \"{}\"",
                word
            ),
        );
    }
    for word in [
        "-", "0.5", "-12.0", "5.", "1e3", "+1", "0x", "0.5ppm", "ppm",
    ] {
        let reason = format!(
            "OFFSET is a whole number, not \"{}\"; in ppm it is written as in \
             measurement 3 0.484375 ppm",
            word
        );
        check(&format!("measurement 1 {}", word), 1, &reason);
        check(&format!("measurement 1 {} steps", word), 1, &reason);
    }
}

#[test]
fn counts() {
    check("0 x hit", 1, "COUNT is 1 to 65535, not 0");
    check("65536 x hit", 1, "COUNT is 1 to 65535, not 65536");
    check("-1 x hit", 1, "COUNT is 1 to 65535, not -1");
    check("0x10000 x hit", 1, "COUNT is 1 to 65535, not 0x10000");
    check("7x x hit", 1, "COUNT is a number, not \"7x\"");
    check("repeat 0", 1, "COUNT is 1 to 65535, not 0");
    check(
        "repeat 4294967297",
        1,
        "COUNT is 1 to 65535, not 4294967297",
    );
    check("3 x", 1, "a statement is missing after the count");
    let missing = "after the count 3 an x is missing, as in 79 x tick 0x00 0 0";
    check("3", 1, missing);
    check("3 tick 0 0 0", 1, missing);
    check("3 x repeat 2", 1, "repeat takes no count in front");
    check("repeat 2\n3 x end", 2, "end takes no count in front");
}

#[test]
fn order_and_groups() {
    let late = "a setting after an event; write is for those";
    check("hit\nsetting 0x40 1", 2, late);
    check("repeat 2\nhit\nsetting 0x40 1\nend", 3, late);
    let grouped = "a setting in a repeat; only events can stand there";
    check("repeat 2\nsetting 0x40 1\nend", 2, grouped);
    check("hit\nend", 2, "an end without a repeat");
    check("repeat 2\nend\nend", 3, "an end without a repeat");
    check("\nrepeat 2\nhit", 2, "this repeat has no end");
    check("repeat 2\nrepeat 2\nhit\nend", 1, "this repeat has no end");
    check(&"repeat 1\n".repeat(9), 9, "repeats stand more than 8 deep");
}

#[test]
fn limits_of_a_sheet() {
    check("257 x setting 0x40 1", 1, "more than 256 settings");
    check(
        "256 x setting 0x40 1\nsetting 0x40 1",
        2,
        "more than 256 settings",
    );
    let long = "the sheet would be over 65,535 bytes";
    check("8192 x hit", 1, long);
    check("65535 x hit", 1, long);
    check("8191 x hit\nhit", 2, long);
    check("256 x setting 0x40 1\n8128 x hit", 2, long);
    let group = "the sheet would be over 65,535 bytes (repeat of line 2)";
    check("\nrepeat 65535\nhit\nend", 4, group);
    check("\nrepeat 4096\nhit\nhit\nend", 5, group);
    let deep = "repeat 65535\n".repeat(8) + "hit\n" + &"end\n".repeat(8);
    check(
        &deep,
        10,
        "the sheet would be over 65,535 bytes (repeat of line 8)",
    );
}

#[test]
fn texts_that_are_not_utf_8() {
    let reason = "not a text in UTF-8".to_string();
    assert_eq!(fault(b"hit\n# caf\xe9\n"), (2, reason.clone()));
    assert_eq!(fault(b"\xff\xfeh\0"), (1, reason));
}

/// The first fault is told, not a later one.
#[test]
fn the_first_fault() {
    check(
        "repeat 2\nhit 1\nend\nend",
        2,
        "\"1\" is one field too many for hit",
    );
}

#[test]
fn what_is_allowed() {
    let same = |one: &str, other: &str| {
        let sheets = [one, other].map(|text| make(text.as_bytes()).expect(text));
        assert_eq!(sheets[0], sheets[1]);
    };
    same("", "\n# nothing\n   \t\n");
    same("hit", "  hit\t# a Hit\r\n");
    same("hit", "\u{feff}hit");
    same("2 x tick 0xFF 1 -1", "tick 255 1 -0x1\ntick 0xff 01 -1");
    same("0x3 x hit", "3 x hit");
    same("repeat 3\nhit\nend", "3 x hit");
    same(
        "repeat 2\nhit\nrepeat 2\ntick 0 0 0\nend\nend",
        "hit\n2 x tick 0 0 0\nhit\n2 x tick 0 0 0",
    );
    same("repeat 65535\nrepeat 65535\nend\nend\nhit", "hit");
    same("repeat 2\nend\nsetting control 1", "setting 0x40 1");
    same("8191 x hit", "repeat 8191\nhit\nend");
    same("measurement 255 -128", "measurement 0xff -0x80");
    same("measurement 255 -2 ppm", "measurement 0xff -0x80 steps");
    same(
        "3 x measurement 1 0.5 ppm",
        &"measurement 1 32 steps\n".repeat(3),
    );
    same(
        "repeat 2\nmeasurement 8 -512 ppm\nend",
        "2 x measurement 8 -32768 steps # the least",
    );
    same("tick 0 0 -2147483648", "tick 0 0 -0x80000000");
    for (address, name) in sheet_tool::registers::all() {
        same(
            &format!("write {} 1", name),
            &format!("write {} 1", address),
        );
    }
}
