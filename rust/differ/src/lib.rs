//! The differential test: random lists of events, calls and tables sent to the
//! model and to a device, their answers compared after each.

#![forbid(unsafe_code)]

pub mod coverage;
pub mod device;
pub mod difference;
pub mod draw;
pub mod fields;
pub mod list;
pub mod pair;
pub mod phases;
pub mod report;
pub mod run;
pub mod scenarios;
pub mod sent;
pub mod shrink;
pub mod table;
pub mod windows;
