//! The sheet tool's tests: its parts as functions, and the program as a process.

mod bands;
mod busy_hours;
mod calls;
mod commands;
mod examples;
mod faults;
mod files;
mod finer_readings;
mod fresh_values;
mod hosts;
mod outputs;
mod pages;
mod pictures;
mod places;
mod process;
mod program;
mod random;
mod refused;
mod round_trip;
mod same_numbers;
mod same_records;
mod stories;
mod tables;
mod xml;
