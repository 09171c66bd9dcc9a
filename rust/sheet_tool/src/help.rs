//! What `--help` says: a file, which the command `bin/sheet` can show before
//! anything is proved and built.

pub const HELP: &str = include_str!("help.txt");
