//! A whole run: the lists of a base seed, one after the other.

use crate::coverage::Coverage;
use crate::device::Device;
use crate::difference::Name;
use crate::list::{List, Step};
use crate::scenarios;
use shared::random::Random;

/// How many lists with a long Holdover a run has.
pub const LONG_LISTS: u32 = 3;

/// The names of a base seed's lists: the mixed ones, then the long ones.
pub fn names(seed: u64, mixed: u32, long: u32) -> impl Iterator<Item = Name> {
    let mut random = Random::new(seed);
    (0..mixed + long).map(move |index| Name {
        seed: random.word(),
        long: index >= mixed,
    })
}

/// Runs the lists for a device of this make, up to the first difference.
pub fn run_lists<D: Device>(
    make: &D,
    names: impl Iterator<Item = Name>,
    coverage: &mut Coverage,
) -> Step {
    for name in names {
        run_list(make, name, coverage)?;
    }
    Ok(())
}

/// Runs one list.
pub fn run_list<D: Device>(make: &D, name: Name, coverage: &mut Coverage) -> Step {
    let mut list = List::fresh(make, name, coverage);
    play(&mut list)?;
    list.close();
    Ok(())
}

/// Sends all events of the list that its name stands for.
pub fn play<D: Device>(list: &mut List<D>) -> Step {
    if list.name().long {
        scenarios::long_list(list)
    } else {
        scenarios::mixed_list(list)
    }
}
