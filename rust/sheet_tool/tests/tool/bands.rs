//! The busy hours in pictures: bands where the places of the ticks are in a
//! window, told in the legend; the calls in the notes.

use crate::process::sheet_with;
use crate::xml::texts;

const BAND: &str = "fill=\"#f8e4ee\"";
/// Where the rows begin, and how wide they are.
const LEFT: u64 = 110;
const WIDTH: u64 = 1_235;

fn drawn(text: &str) -> String {
    sheet_with(&["picture", "--text"], text.as_bytes()).text()
}

/// The areas with the bands' fill in each element: those behind the rows, and
/// the legend's.
fn areas(svg: &str) -> Vec<Vec<(u64, u64)>> {
    let elements = svg.lines().filter(|line| line.contains(BAND));
    let areas = elements.map(|element| {
        let path = element.split('"').nth(1).expect("a path");
        let area = |area: &str| {
            let (left, rest) = area.split_once(' ').expect("a corner");
            let (_, rest) = rest.split_once('h').expect("a side");
            let (width, _) = rest.split_once('v').expect("a side");
            let number = |text: &str| text.parse::<u64>().expect("a number");
            (number(left), number(left) + number(width))
        };
        path.split('M').skip(1).map(area).collect()
    });
    areas.collect()
}

/// The bands of a text with 40 ticks, each from a tick up to but not with
/// another; 41 is the picture's end.
#[track_caller]
fn check(text: &str, bands: &[(u64, u64)]) {
    let svg = drawn(text);
    let told = texts(&svg).contains(&"busy hours");
    assert_eq!(told, !bands.is_empty(), "{}", text);
    let x = |tick| LEFT + tick * WIDTH / 41;
    let bands: Vec<_> = bands.iter().map(|&(from, to)| (x(from), x(to))).collect();
    match &areas(&svg)[..] {
        [] => assert!(bands.is_empty(), "{}", text),
        [behind, legend] => {
            assert_eq!(*behind, bands, "{}", text);
            assert_eq!(legend.len(), 1);
        }
        more => panic!("{:?}", more),
    }
}

#[test]
fn the_bands() {
    let ticks = "40 x tick 0 0 0\n";
    for (calls, bands) in [
        ("windows none\n", &[][..]),
        ("week 5\n", &[]),
        ("windows 40 to 50\n", &[]),
        ("windows 10 to 10\n", &[]),
        ("windows 0 to 168:00\n", &[]),
        ("windows 10 to 20\nwindows none\n", &[]),
        ("windows 10 to 20\nweek 20\n", &[]),
        ("windows 0 to 20\nweek 20\n", &[]),
        ("windows 0 to 20\nwindows none\n", &[]),
        // Place 10 is that of tick 11.
        ("windows 10 to 20\n", &[(11, 21)]),
        ("windows 10 to 20\nwindows 30 to 25\n", &[(11, 21)]),
        ("windows 10 to 20\nweek 168:00\n", &[(11, 21)]),
        ("windows 10 to 20, 25 to 30\n", &[(11, 21), (26, 31)]),
        ("windows 10 to 20\nweek 5\n", &[(6, 16)]),
        // From before the first tick, and to the end.
        ("windows 0 to 20\n", &[(0, 21)]),
        ("week 5\nwindows 1 to 20\n", &[(0, 16)]),
        ("windows 10 to 1:00\n", &[(11, 41)]),
        ("windows 39 to 40\n", &[(40, 41)]),
        // Over the end of the week.
        ("week 4724980\nwindows 4724990 to 4725000\n", &[(11, 21)]),
        ("week 4724980\nwindows 0 to 5\n", &[(21, 26)]),
        (
            "week 4724980\nwindows 0 to 5, 4724990 to 4724999\n",
            &[(11, 20), (21, 26)],
        ),
    ] {
        check(&format!("{}{}", calls, ticks), bands);
    }
}

/// The call counts from the next tick on; a refused tick, a Hit or a write takes
/// no time and has no place.
#[test]
fn calls_in_the_run() {
    let ticks = "10 x tick 0 0 0\n";
    for (call, bands) in [
        ("windows 0 to 1:00", &[(11, 41)][..]),
        ("windows 0 to 20", &[(11, 21)]),
        ("windows 0 to 10", &[]),
        ("windows 0 to 100\nwindows none", &[]),
        ("windows 0 to 100\nweek 100", &[]),
        ("windows 200 to 205\nweek 200", &[(11, 16)]),
    ] {
        check(&format!("{0}{1}\n{0}{0}{0}", ticks, call), bands);
    }
    for (call, bands) in [
        ("windows none", &[(0, 11)][..]),
        ("windows 0 to 5", &[(0, 11)]),
        ("week 100", &[(0, 11)]),
        ("week 90", &[(0, 21)]),
        ("week 0\nwindows 5 to 10", &[(0, 11), (16, 21)]),
    ] {
        let text = format!("windows 0 to 100\n{0}{1}\n{0}{0}{0}", ticks, call);
        check(&text, bands);
    }
    for event in ["tick 0 0 200000000", "hit", "write mask 0"] {
        for split in [1, 10, 11, 20, 21, 39] {
            let ticks = |count| format!("{} x tick 0 0 0\n", count);
            let (before, after) = (ticks(split), ticks(40 - split));
            let text = format!("windows 10 to 20\n{}3 x {}\n{}", before, event, after);
            check(&text, &[(11, 21)]);
        }
    }
}

/// The times of a band's ends stand above it; a long stretch in it is cut, and
/// the band with it.
#[test]
fn times_and_cuts() {
    let svg = drawn("windows 10 to 20\n40 x tick 0 0 0");
    for time in ["1.408", "2.688"] {
        assert!(texts(&svg).contains(&time), "no {}", time);
    }
    let svg = drawn("windows 10 to 8000\n9000 x tick 0 0 0");
    let all = texts(&svg);
    for text in ["1.408", "1024.128"] {
        assert!(all.contains(&text), "no {}", text);
    }
    let cut = all.iter().filter(|text| text.ends_with("left out")).count();
    assert_eq!((cut, areas(&svg)[0].len()), (2, 2));
}

/// A call is told in ticks; one that is too long for a line has two, and no more.
#[test]
fn notes() {
    let svg = drawn("week mon 07:30\nwindows mon 08:00 to mon 18:00\nwindows none\ntick 0 0 0");
    for note in [
        "call at 0.000 s: week 210938",
        "call at 0.000 s: windows 225000 to 506250",
        "call at 0.000 s: windows none",
    ] {
        assert!(texts(&svg).contains(&note), "no {}", note);
    }
    let window = "4294967290 to 4294967295";
    let line = |count| vec![window; count].join(", ");
    let first = format!("call at 0.000 s: windows {},", line(5));
    for (count, second) in [
        (8, line(3)),
        (11, line(6)),
        (12, line(6) + ", ..."),
        (255, line(6) + ", ..."),
    ] {
        let svg = drawn(&format!("windows {}", line(count)));
        let texts = texts(&svg);
        assert_eq!(texts[texts.len() - 2..], [first.as_str(), second.as_str()]);
    }
}

/// Every second tick is in a window.
#[test]
fn a_picture_of_many_bands_stays_small() {
    let svg = drawn("windows 0 to 1, 2 to 3\nrepeat 3000\nweek 0\n4 x tick 0 0 0\nend");
    assert!(texts(&svg).contains(&"and 2989 calls more"));
    assert!(areas(&svg)[0].len() > 100);
    assert!(svg.len() < 70_000, "{} bytes", svg.len());
}
