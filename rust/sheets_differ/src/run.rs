//! A whole run: the sheets of a base seed, one after the other.

use crate::compare::{Against, Given};
use crate::coverage::Coverage;
use crate::damage::Damage;
use crate::difference::{Difference, Mismatch, Name};
use crate::runner::Runner;
use crate::sheet;
use model::LONGEST_SHEET;
use shared::random::Random;

/// The rack program gets one sheet in so many, and more of those that are
/// about as long as a sheet may be, or longer.
const RACK_ONE_IN: u32 = 12;
const RACK_LONG_ONE_IN: u32 = 4;

/// The names of a base seed's sheets: a whole one, a damaged one, and so on,
/// so many of each.
pub fn names(seed: u64, each: u32) -> impl Iterator<Item = Name> {
    let mut random = Random::new(seed);
    let kinds = (0..each).flat_map(|_| [false, true]);
    kinds.map(move |damaged| Name {
        seed: random.word(),
        damaged,
    })
}

/// A sheet made from its name, the damage it took, and the random numbers that
/// are left for the comparing.
pub struct Made {
    pub bytes: Vec<u8>,
    pub damage: Option<usize>,
    random: Random,
}

/// The sheet that the name stands for.
pub fn make(name: Name, damages: &[Damage]) -> Made {
    let mut random = Random::new(name.seed);
    if !name.damaged {
        let bytes = sheet::whole(&mut random).bytes;
        return Made {
            bytes,
            damage: None,
            random,
        };
    }
    let mut sheet = sheet::small(&mut random);
    let damage = random.below(damages.len() as u32) as usize;
    damages[damage].apply(&mut random, &mut sheet);
    Made {
        bytes: sheet.bytes,
        damage: Some(damage),
        random,
    }
}

/// Runs the sheets, up to the first difference.
pub fn run_sheets<R: Runner>(
    against: &Against<R>,
    names: impl Iterator<Item = Name>,
    damages: &[Damage],
    coverage: &mut Coverage,
) -> Result<(), Box<Difference>> {
    for name in names {
        run_sheet(against, name, damages, false, coverage)?;
    }
    Ok(())
}

/// Runs one sheet; the rack program gets it now and then, or always.
pub fn run_sheet<R: Runner>(
    against: &Against<R>,
    name: Name,
    damages: &[Damage],
    always_rack: bool,
    coverage: &mut Coverage,
) -> Result<(), Box<Difference>> {
    let mut made = make(name, damages);
    coverage.note_sheet(made.damage, model::check(&made.bytes, usize::MAX));
    let one_in = if made.bytes.len() >= LONGEST_SHEET {
        RACK_LONG_ONE_IN
    } else {
        RACK_ONE_IN
    };
    let rack = made.random.one_in(one_in) || always_rack;
    compare(against, &mut made.random, &made.bytes, rack, coverage).map_err(|mismatch| {
        Box::new(Difference {
            name,
            damage: made.damage.map(|index| damages[index].name.clone()),
            sheet: made.bytes,
            mismatch,
        })
    })
}

/// Compares all there is of one sheet.
pub fn compare<R: Runner>(
    against: &Against<R>,
    random: &mut Random,
    sheet: &[u8],
    rack: bool,
    coverage: &mut Coverage,
) -> Result<(), Mismatch> {
    let given = Given::of(sheet);
    against.compare_runs(random, &given, coverage)?;
    against.compare_prints(random, &given, coverage)?;
    if rack {
        against.compare_texts(sheet, coverage)?;
    }
    Ok(())
}
