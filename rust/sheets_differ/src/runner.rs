//! What is compared: anything that checks, runs and prints sheets as the
//! controller does.

pub trait Runner {
    fn name(&self) -> &'static str;

    /// The number of the refusal, 0 if the sheet will run.
    fn check(&self, sheet: &[u8], output_len: usize) -> u8;

    /// How many bytes it wrote at the front of the output, 0 when refused.
    fn run(&self, sheet: &[u8], output: &mut [u8]) -> usize;

    /// The number of the refusal, 0 if it wrote the records and their pages at
    /// the fronts of the two outputs.
    fn print(&self, sheet: &[u8], records: &mut [u8], pages: &mut [u8]) -> u8;
}

/// A check, a run and a print with a name.
pub struct Functions {
    pub name: &'static str,
    pub check: fn(&[u8], usize) -> u8,
    pub run: fn(&[u8], &mut [u8]) -> usize,
    pub print: fn(&[u8], &mut [u8], &mut [u8]) -> u8,
}

impl Runner for Functions {
    fn name(&self) -> &'static str {
        self.name
    }

    fn check(&self, sheet: &[u8], output_len: usize) -> u8 {
        (self.check)(sheet, output_len)
    }

    fn run(&self, sheet: &[u8], output: &mut [u8]) -> usize {
        (self.run)(sheet, output)
    }

    fn print(&self, sheet: &[u8], records: &mut [u8], pages: &mut [u8]) -> u8 {
        (self.print)(sheet, records, pages)
    }
}

pub const MODEL: Functions = Functions {
    name: "model",
    check: model::check,
    run: model::run,
    print: model::print,
};

pub const TUNED_MODEL: Functions = Functions {
    name: "tuned model",
    check: model::fast::check,
    run: model::fast::run,
    print: model::fast::print,
};

#[cfg(feature = "sheets")]
pub const CONTROLLER: Functions = Functions {
    name: "controller",
    check: sheets::check,
    run: sheets::run,
    print: sheets::print,
};
