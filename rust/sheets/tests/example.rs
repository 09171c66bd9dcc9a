//! A first word with the libraries: the example of document 01's run sheet.

const SHEET: [u8; 22] = [
    0x01, 0x00, 0x40, 0x01, 0x02, 0x00, 0, 0, 0, 0, 0, 0, 0, 0, 0x02, 0, 0, 0, 0, 0, 0, 0,
];
const RECORDS: [u8; 12] = [0, 0, 0, 3, 0, 0, 0, 3, 5, 0, 0, 3];

#[test]
fn the_example_runs() {
    let mut output = [0xa5; 16];
    assert_eq!(sheets::check(&SHEET, output.len()), 0);
    assert_eq!(sheets::run(&SHEET, &mut output), RECORDS.len());
    assert_eq!(output[..12], RECORDS);
    assert_eq!(output[12..], [0xa5; 4]);
}

/// Nothing is written either way: the check tells the two apart.
#[test]
fn a_run_without_records_is_no_refusal() {
    let mut output = [0xa5; 4];
    assert_eq!(sheets::run(&[0; 4], &mut output), 0);
    assert_eq!(sheets::check(&[0; 4], output.len()), 0);
    assert_eq!(sheets::run(&[0; 5], &mut output), 0);
    assert_eq!(sheets::check(&[0; 5], output.len()), 11);
    assert_eq!(output, [0xa5; 4]);
}

#[test]
fn a_refused_sheet_leaves_the_output() {
    for (sheet, length, number) in [(&SHEET[..], 11, 13), (&SHEET[..21], 16, 10), (&[], 0, 10)] {
        let mut output = vec![0xa5; length];
        assert_eq!(sheets::check(sheet, length), number);
        assert_eq!(sheets::run(sheet, &mut output), 0);
        assert_eq!(output, vec![0xa5; length]);
    }
}

/// The example's page, filled with blank lines; the bytes after records and
/// page are unchanged.
#[test]
fn the_example_is_printed() {
    let lines = [
        "    0 Free Run      0  0 03\n",
        "    1 Free Run      0  0 03\n",
        "    2 Free Run      0  5 03\n",
    ];
    let page = lines.concat() + &(" ".repeat(27) + "\n").repeat(47);
    let (mut records, mut pages) = ([0xa5; 16], [0xa5; 1_401]);
    assert_eq!(sheets::print(&SHEET, &mut records, &mut pages), 0);
    assert_eq!(records[..12], RECORDS);
    assert_eq!(records[12..], [0xa5; 4]);
    assert_eq!(String::from_utf8_lossy(&pages[..1_400]), page);
    assert_eq!(pages[1_400..], [0xa5]);
}

#[test]
fn a_print_without_records_has_no_page() {
    let (mut records, mut pages) = ([0xa5; 4], [0xa5; 1_400]);
    assert_eq!(sheets::print(&[0; 4], &mut records, &mut pages), 0);
    assert_eq!(sheets::print(&[0; 4], &mut [], &mut []), 0);
    assert_eq!((records, pages), ([0xa5; 4], [0xa5; 1_400]));
}

#[test]
fn a_refused_print_leaves_both_outputs() {
    for (sheet, records_len, pages_len, number) in [
        (&SHEET[..], 11, 1_400, 13),
        (&SHEET[..], 12, 1_399, 13),
        (&SHEET[..], 12, 0, 13),
        (&SHEET[..21], 12, 1_400, 10),
        (&[], 0, 0, 10),
    ] {
        let (mut records, mut pages) = (vec![0xa5; records_len], vec![0xa5; pages_len]);
        assert_eq!(sheets::print(sheet, &mut records, &mut pages), number);
        assert_eq!(records, vec![0xa5; records_len]);
        assert_eq!(pages, vec![0xa5; pages_len]);
    }
}

#[test]
fn so_many_records_so_many_pages() {
    let pages = [0, 1, 49, 50, 51, 100, 8_383].map(sheets::pages_of);
    assert_eq!(pages, [0, 1, 1, 1, 2, 2, 168]);
    assert_eq!(sheets::BYTES_PER_PAGE * pages[6], 235_200);
}
