//! The table of a run: every refusal in words, time by accepted ticks alone,
//! and Free Run as a candidate.

use sheet_tool::make::make;
use sheet_tool::records::run;
use sheet_tool::table::table;

#[track_caller]
fn check(text: &str, all: bool, lines: &[&str]) {
    let titles = "first   last    from s      to s  state         selected  qualified  alarm  Ready  backup  refusal";
    let expected = format!("{}\n{}\n", titles, lines.join("\n"));
    let sheet = make(text.as_bytes()).expect("a sheet");
    assert_eq!(table(&run(&sheet), all), expected);
}

#[test]
fn every_refusal() {
    check(
        "write 0x50 0\nwrite state 0\nwrite control 2\nwrite reject 30\nhit\nmeasurement 9 0\n\
         tick 0 0 200000000\nwrite history-command 1",
        false,
        &[
            "    0      0     0.000     0.000  Free Run      none      ........   alarm  -      -       1 address not in the map",
            "    1      1     0.000     0.000  Free Run      none      ........   alarm  -      -       2 write to a read-only register",
            "    2      2     0.000     0.000  Free Run      none      ........   alarm  -      -       3 value above the register's largest",
            "    3      3     0.000     0.000  Free Run      none      ........   alarm  -      -       4 reject - qualification would be under 6",
            "    4      4     0.000     0.000  Free Run      none      ........   alarm  -      -       5 Hit with no reference 1 to 8 selected",
            "    5      5     0.000     0.000  Free Run      none      ........   alarm  -      -       6 input not 1 to 8",
            "    6      6     0.000     0.000  Free Run      none      ........   alarm  -      -       7 sample out of range",
            "    7      7     0.000     0.000  Free Run      none      ........   alarm  -      -       8 command 1 while not Ready, or command 2 without backup",
        ],
    );
}

#[test]
fn a_refused_tick_takes_no_time() {
    check(
        "tick 0 0 0\n2 x tick 0 0 -125000001\ntick 0 0 -125000000",
        true,
        &[
            "    0      0     0.128     0.128  Free Run      none      ........   alarm  -      -       0",
            "    1      1     0.128     0.128  Free Run      none      ........   alarm  -      -       7 sample out of range",
            "    2      2     0.128     0.128  Free Run      none      ........   alarm  -      -       7 sample out of range",
            "    3      3     0.256     0.256  Free Run      none      ........   alarm  -      -       0",
        ],
    );
}

/// Free Run enabled stands after the references of equal priority.
#[test]
fn free_run_as_a_candidate() {
    check(
        "setting control 1\nsetting free-run 0x18\nmeasurement 8 0\n79 x tick 0 0 0",
        false,
        &[
            "    0      2     0.000     0.000  Free Run      none      ........   alarm  -      -       0",
            "    3     80     0.128     9.984  Free Run      Free Run  ........   alarm  -      -       0",
            "   81     81    10.112    10.112  Pre-locked    8         .......8   -      -      -       0",
        ],
    );
}
