//! The calls that set and assign bucket sets, and the numbers of these, drawn at
//! random.

use model::{BucketSet, Call};
use shared::random::Random;

/// Numbers of a bucket set within the bounds, often at one of them.
pub fn bucket_numbers(random: &mut Random) -> BucketSet {
    let most = random.pick(&[3, 10, 10, 40, 255]);
    let any_size = random.between(1, most);
    let size = random.pick(&[most, any_size]);
    let any_level = random.between(1, size);
    let set_level = random.pick(&[size, any_level, any_level]);
    let any_level = random.below(set_level);
    let clear_level = random.pick(&[set_level - 1, any_level, 0]);
    let decay = random.below(4);
    let [size, set_level, clear_level, decay] =
        [size, set_level, clear_level, decay].map(|number| number as u8);
    BucketSet::of(size, set_level, clear_level, decay)
}

/// Numbers of a bucket set with one bound overstepped, often by 1.
fn numbers_out_of_bounds(random: &mut Random) -> BucketSet {
    let numbers = bucket_numbers(random);
    let BucketSet { set_level, .. } = numbers;
    let (size, byte) = (numbers.size.min(254), random.byte());
    match random.below(5) {
        0 => BucketSet {
            size,
            set_level: size + 1,
            ..numbers
        },
        1 => BucketSet {
            size: random.below(u32::from(set_level)) as u8,
            ..numbers
        },
        2 => BucketSet {
            clear_level: set_level,
            ..numbers
        },
        3 => BucketSet {
            clear_level: set_level.max(byte),
            ..numbers
        },
        _ => BucketSet {
            decay: random.pick(&[4, 4 | byte, 255]),
            ..numbers
        },
    }
}

/// A number of a bucket set that there is.
pub fn bucket_set(random: &mut Random) -> u8 {
    random.below(4) as u8
}

/// A call to be refused: a bound overstepped, or two of them.
pub fn refused_bucket_call(random: &mut Random) -> Call {
    let byte = random.byte();
    let set = bucket_set(random);
    let no_set = random.pick(&[4, 4 | byte, 255]);
    let input = random.between(1, 8) as u8;
    let no_input = random.pick(&[0, 9, 0x10 | byte, 255]);
    let numbers = bucket_numbers(random);
    let no_numbers = numbers_out_of_bounds(random);
    random.pick(&[
        set_bucket(set, no_numbers),
        set_bucket(set, no_numbers),
        set_bucket(no_set, numbers),
        set_bucket(no_set, no_numbers),
        assign_bucket(input, no_set),
        assign_bucket(no_input, set),
        assign_bucket(no_input, no_set),
    ])
}

fn set_bucket(set: u8, numbers: BucketSet) -> Call {
    Call::SetBucket { set, numbers }
}

fn assign_bucket(input: u8, set: u8) -> Call {
    Call::AssignBucket { input, set }
}

/// A call with random bytes in all places, most often small ones.
pub fn any_bucket_call(random: &mut Random) -> Call {
    let mut byte = || {
        let byte = random.byte();
        random.pick(&[byte % 4, byte % 10, byte])
    };
    let (set, input) = (byte(), byte());
    let numbers = BucketSet::of(byte(), byte(), byte(), byte());
    random.pick(&[set_bucket(set, numbers), assign_bucket(input, set)])
}
