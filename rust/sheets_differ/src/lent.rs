//! An output that is lent twice, with the same bytes in it: to the model and to
//! the runner. Bytes lie around it that are not lent.

use crate::difference::{Mismatch, Output};
use shared::random::Random;
use std::ops::Range;

/// Bytes before and after the lent output.
const AROUND: usize = 16;

pub struct Lent {
    output: Output,
    part: Range<usize>,
    of_model: Vec<u8>,
    of_runner: Vec<u8>,
}

impl Lent {
    /// So many bytes of any values.
    pub fn any(random: &mut Random, output: Output, length: usize) -> Lent {
        let part = AROUND..AROUND + length;
        let bytes = any_bytes(random, part.end + AROUND);
        Lent {
            output,
            part,
            of_model: bytes.clone(),
            of_runner: bytes,
        }
    }

    pub fn to_model(&mut self) -> &mut [u8] {
        &mut self.of_model[self.part.clone()]
    }

    pub fn to_runner(&mut self) -> &mut [u8] {
        &mut self.of_runner[self.part.clone()]
    }

    /// All bytes must be the same: those written, those after them and those
    /// around.
    pub fn compare(&self) -> Result<(), Mismatch> {
        if self.of_model == self.of_runner {
            return Ok(());
        }
        let mut pairs = self.of_model.iter().zip(&self.of_runner);
        let place = pairs.position(|(model, runner)| model != runner);
        let place = place.expect("bytes of one length that are not the same");
        Err(Mismatch::Byte {
            output: self.output,
            output_len: self.part.len(),
            place: place as isize - AROUND as isize,
            model: self.of_model[place],
            runner: self.of_runner[place],
        })
    }
}

fn any_bytes(random: &mut Random, count: usize) -> Vec<u8> {
    let mut bytes = vec![0; count];
    for word in bytes.chunks_mut(8) {
        word.copy_from_slice(&random.word().to_le_bytes()[..word.len()]);
    }
    bytes
}
