//! The bindings to the real controller's run sheets, two static libraries with
//! a C interface: librun.a checks and runs, libprint.a prints. The host lends
//! the sheet and the outputs for each call.

/// The limits of a sheet.
pub const LONGEST_SHEET: usize = 65_535;
pub const MOST_SETTINGS: usize = 256;

/// The sizes of its parts, and of what each setting and event gives.
pub const BYTES_PER_COUNT: usize = 2;
pub const BYTES_PER_SETTING: usize = 2;
pub const BYTES_PER_EVENT: usize = 8;
pub const BYTES_PER_RECORD: usize = 4;

/// The size of a printed page: a line for each record, 27 columns and a line
/// feed.
pub const LINES_PER_PAGE: usize = 50;
pub const BYTES_PER_PAGE: usize = 1_400;

/// How many pages so many records take.
pub fn pages_of(records: usize) -> usize {
    records / LINES_PER_PAGE + usize::from(records % LINES_PER_PAGE > 0)
}

extern "C" {
    fn sheet_check(sheet: *const u8, len: usize, output_len: usize) -> u8;
    fn sheet_run(sheet: *const u8, len: usize, output: *mut u8, output_len: usize) -> usize;
    fn sheet_print(
        sheet: *const u8,
        len: usize,
        records: *mut u8,
        records_len: usize,
        pages: *mut u8,
        pages_len: usize,
    ) -> u8;
}

/// The number of the refusal of a sheet against an output's length, 0 if it
/// will run.
pub fn check(sheet: &[u8], output_len: usize) -> u8 {
    // SAFETY: the pointer is to `len` bytes, which are only read; the length of
    // the output is a number alone.
    unsafe { sheet_check(sheet.as_ptr(), sheet.len(), output_len) }
}

/// How many bytes it wrote at the front of the output; those after them are
/// unchanged. 0 when refused, and for a run without records: `check` tells the
/// two apart.
pub fn run(sheet: &[u8], output: &mut [u8]) -> usize {
    let (bytes, output_len) = (output.as_mut_ptr(), output.len());
    // SAFETY: both pointers are to as many bytes as the lengths say, the
    // sheet's only read, the output's lent for the call alone; they do not
    // overlap.
    unsafe { sheet_run(sheet.as_ptr(), sheet.len(), bytes, output_len) }
}

/// Runs the sheet and writes its records at the front of the one output, their
/// pages at the front of the other; what lies behind them is unchanged. The
/// number of the refusal, 0 if it ran; when refused, both are unchanged.
pub fn print(sheet: &[u8], records: &mut [u8], pages: &mut [u8]) -> u8 {
    let (records_bytes, records_len) = (records.as_mut_ptr(), records.len());
    let (pages_bytes, pages_len) = (pages.as_mut_ptr(), pages.len());
    // SAFETY: all three pointers are to as many bytes as the lengths say, the
    // sheet's only read, the outputs' lent for the call alone; no two overlap.
    unsafe {
        sheet_print(
            sheet.as_ptr(),
            sheet.len(),
            records_bytes,
            records_len,
            pages_bytes,
            pages_len,
        )
    }
}
