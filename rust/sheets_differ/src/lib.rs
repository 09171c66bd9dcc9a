//! The differential test of run sheets: random sheets, whole and damaged, given
//! to the model and to the controller, and to the rack program; numbers,
//! records, pages and printed texts compared.

#![forbid(unsafe_code)]

pub mod compare;
pub mod coverage;
pub mod damage;
pub mod difference;
pub mod lent;
pub mod rack;
pub mod room;
pub mod run;
pub mod runner;
pub mod sheet;
pub mod shorten;
