//! The rack program as the model has it, to try the differ without the real
//! one.

use std::io::{self, Read, Write};

fn main() -> io::Result<()> {
    let mut sheet = Vec::new();
    io::stdin().read_to_end(&mut sheet)?;
    io::stdout().write_all(model::printed(&sheet).as_bytes())
}
