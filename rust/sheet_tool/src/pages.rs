//! The records of a run as pages for a printer: `page`.

use crate::sheet::Sheet;
use sheets::{pages_of, BYTES_PER_PAGE, BYTES_PER_RECORD};

const FORM_FEED: u8 = 0x0c;

/// The pages of a sheet, one after the other, or the number that the controller
/// refuses it with.
pub fn pages(sheet: &Sheet) -> Result<Vec<u8>, u8> {
    let count = sheet.steps().count();
    let mut records = vec![0; BYTES_PER_RECORD * count];
    let mut pages = vec![0; BYTES_PER_PAGE * pages_of(count)];
    match sheets::print(&sheet.to_bytes(), &mut records, &mut pages) {
        0 => Ok(pages),
        refusal => Err(refusal),
    }
}

/// The pages with a form feed between each two.
pub fn with_form_feeds(pages: &[u8]) -> Vec<u8> {
    let pages: Vec<_> = pages.chunks(BYTES_PER_PAGE).collect();
    pages.join(&FORM_FEED)
}
