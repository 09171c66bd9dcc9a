//! The reference controller of the eight-input timing unit, written plainly
//! from document 01 and from the requests of document 02. It is compared with
//! the real controller; it shares no code with it. Sentences in quotation marks
//! are document 01's, in `buckets`, `building`, `calls`, `pages`, `tables` and
//! `week` document 02's.

#![forbid(unsafe_code)]

mod blocks;
mod buckets;
mod building;
mod calls;
mod event;
pub mod fast;
mod history;
mod monitors;
mod old_rules;
mod pages;
mod pll;
mod reading;
mod refusal;
mod registers;
mod selection;
mod sheet;
mod tables;
mod unit;
mod week;

pub use blocks::{Blocks, OpenBlock, BLOCKS_KEPT, SAMPLES_PER_BLOCK};
pub use buckets::{BucketSet, Buckets, BUCKET_SETS};
pub use calls::Call;
pub use event::Event;
pub use history::{History, BLOCKS_FOR_READY};
pub use monitors::{finer_limit, finer_offset, Input, LOCK_ALARM_TICKS, SOAK_TICKS};
pub use pages::{pages, pages_of, print, BYTES_PER_PAGE, COLUMNS, LINES_PER_PAGE};
pub use pll::{Pll, State, LOCK_TICKS, UNLOCK_TICKS};
pub use reading::TICKS_PER_HOUR;
pub use refusal::Refusal;
pub use registers::{Register, Settings, REGISTERS};
pub use selection::{wait_limit, Wait, FREE_RUN, NONE};
pub use sheet::{
    check, printed, records, run, sheet_of, Record, BYTES_PER_COUNT, BYTES_PER_EVENT,
    BYTES_PER_RECORD, BYTES_PER_SETTING, LONGEST_SHEET, MOST_SETTINGS,
};
pub use tables::{table_addresses, STANDARD_TABLE};
pub use unit::{OldUnit, Unit, UnitUnder, SAMPLE_LIMIT};
pub use week::{windows_can_be, Week, Window, MOST_WINDOWS, TICKS_PER_WEEK, WINDOW_NUMBERS};
