//! The program `sheet`.

use std::process::ExitCode;

fn main() -> ExitCode {
    sheet_tool::program::main(std::env::args_os().skip(1))
}
