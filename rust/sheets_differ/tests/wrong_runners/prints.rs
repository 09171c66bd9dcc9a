//! The faults of prints that have the right pages: each alters the number, or
//! which output is written.

use crate::faults::{Fault, NO_FAULT};
use model::{check, print};

type Print = fn(&[u8], &mut [u8], &mut [u8]) -> u8;

const fn in_print(name: &'static str, print: Print) -> Fault {
    Fault {
        name,
        print,
        ..NO_FAULT
    }
}

/// The number of a print with outputs of these lengths.
fn number(sheet: &[u8], records_len: usize, pages_len: usize) -> u8 {
    print(sheet, &mut vec![0; records_len], &mut vec![0; pages_len])
}

/// An output that has room for every sheet.
fn large() -> Vec<u8> {
    vec![0; 240_000]
}

pub static PRINT_FAULTS: &[Fault] = &[
    in_print("no records written", |sheet, records, pages| {
        print(sheet, &mut records.to_vec(), pages)
    }),
    in_print("a byte after the records", |sheet, records, pages| {
        let count = model::records(sheet).map_or(0, |records| records.len());
        let number = print(sheet, records, pages);
        if let (0, Some(byte)) = (number, records.get_mut(4 * count)) {
            *byte ^= 0x01;
        }
        number
    }),
    in_print(
        "the last byte of the pages' output",
        |sheet, records, pages| {
            let number = print(sheet, records, pages);
            if let (0, Some(byte)) = (number, pages.last_mut()) {
                *byte = !*byte;
            }
            number
        },
    ),
    in_print(
        "pages though the records are short",
        |sheet, records, pages| match print(sheet, records, pages) {
            13 => {
                print(sheet, &mut large(), pages);
                13
            }
            number => number,
        },
    ),
    in_print(
        "records though the pages are short",
        |sheet, records, pages| match print(sheet, records, pages) {
            13 => {
                print(sheet, records, &mut large());
                13
            }
            number => number,
        },
    ),
    in_print("blanks in what is refused", |sheet, records, pages| {
        let number = print(sheet, records, pages);
        if number > 0 {
            pages.fill(b' ');
        }
        number
    }),
    in_print("12 after 13", |sheet, records, pages| {
        match print(sheet, records, pages) {
            12 if pages.len() < 1_400 => 13,
            number => number,
        }
    }),
    in_print("9 after 13", |sheet, records, pages| {
        match print(sheet, records, pages) {
            9 if records.len() < 4 => 13,
            number => number,
        }
    }),
    in_print(
        "13 for pages of the very length",
        |sheet, records, pages| match number(sheet, records.len(), pages.len().saturating_sub(1)) {
            0 => print(sheet, records, pages),
            number => number,
        },
    ),
    in_print("pages one byte too short taken", |sheet, records, pages| {
        print(sheet, records, pages);
        number(sheet, records.len(), pages.len() + 1)
    }),
    in_print(
        "the records' output not looked at",
        |sheet, records, pages| {
            print(sheet, records, pages);
            number(sheet, large().len(), pages.len())
        },
    ),
    in_print(
        "the pages' output not looked at",
        |sheet, records, pages| {
            print(sheet, records, pages);
            check(sheet, records.len())
        },
    ),
    in_print("14 for short pages", |sheet, records, pages| {
        match print(sheet, records, pages) {
            13 if check(sheet, records.len()) == 0 => 14,
            number => number,
        }
    }),
    in_print("0 whatever comes", |sheet, records, pages| {
        print(sheet, records, pages);
        0
    }),
];
