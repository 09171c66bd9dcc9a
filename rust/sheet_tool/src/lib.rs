//! The sheet tool: a run sheet made from a readable text, shown as that text,
//! run, printed, and drawn; a text with calls of the host, or with a table of
//! fresh values, is run and drawn. Every answer comes from the controller's
//! exported functions; none of its rules is written here again, but which places
//! a window has, for the pictures.

#![forbid(unsafe_code)]

pub mod arguments;
pub mod event;
pub mod fresh;
pub mod help;
pub mod make;
pub mod number;
pub mod output;
pub mod pages;
pub mod picture;
pub mod program;
pub mod records;
pub mod registers;
pub mod script;
pub mod sheet;
pub mod show;
pub mod source;
pub mod step;
pub mod stepped;
pub mod table;
pub mod time;
pub mod week;
