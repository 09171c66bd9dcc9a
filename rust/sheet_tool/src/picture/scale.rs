//! From ticks to the picture's width. A stretch in which nothing changes and
//! that is far longer than all shorter ones together is cut: its middle is left
//! out. All that is left has one scale.

use super::stretches::Stretch;
use crate::time::TICK_MS;

/// Where the rows begin and end.
pub const LEFT: u64 = 110;
pub const RIGHT: u64 = 1_345;

/// How wide a cut is drawn.
pub const CUT_WIDTH: u64 = 30;

/// How wide a stretch is drawn at least.
const LEAST_WIDTH: u64 = 2;

const MOST_CUTS: usize = 4;
/// A stretch is cut if it has so many ticks, and is so many times as long as
/// all shorter ones together.
const SHORTEST_CUT: u64 = 100;
const CUT_RATIO: u64 = 3;
/// On either side of a cut this part of the uncut time is kept, and so many ticks
/// at least.
const KEPT_PART: u64 = 12;
const LEAST_KEPT: u64 = 8;

/// A part of the time that is drawn, and where it begins.
#[derive(Clone, Copy, Debug, PartialEq, Eq)]
pub struct Piece {
    pub from: u64,
    pub to: u64,
    pub left: u64,
}

pub struct Scale {
    pieces: Vec<Piece>,
    /// So many pixels for so many ticks.
    pixels: u64,
    ticks: u64,
}

/// A stretch as it is drawn.
#[derive(Clone, Copy, Debug, PartialEq, Eq)]
pub struct Span<T> {
    pub left: u64,
    pub right: u64,
    pub value: T,
}

impl Scale {
    /// The scale for changes at these ticks, the first and the last being the
    /// picture's ends.
    pub fn of(changes: &[u64]) -> Scale {
        let quiet: Vec<(u64, u64)> = changes.windows(2).map(|two| (two[0], two[1])).collect();
        let lengths = quiet.iter().map(|(from, to)| to - from).collect();
        let (shortest_cut, uncut) = cut(lengths);
        let kept = (uncut / KEPT_PART).max(LEAST_KEPT);
        let cuts = quiet
            .iter()
            .filter(|(from, to)| to - from >= shortest_cut)
            .map(|(from, to)| (from + kept, to - kept));
        let mut parts = vec![];
        let mut start = changes[0];
        for (from, to) in cuts {
            parts.push((start, from));
            start = to;
        }
        parts.push((start, changes[changes.len() - 1]));
        Scale::of_parts(&parts)
    }

    fn of_parts(parts: &[(u64, u64)]) -> Scale {
        let cuts = parts.len() as u64 - 1;
        let mut scale = Scale {
            pieces: vec![],
            pixels: RIGHT - LEFT - CUT_WIDTH * cuts,
            ticks: parts.iter().map(|(from, to)| to - from).sum(),
        };
        let mut drawn = 0;
        for (index, &(from, to)) in parts.iter().enumerate() {
            let left = LEFT + CUT_WIDTH * index as u64 + scale.width(drawn);
            scale.pieces.push(Piece { from, to, left });
            drawn += to - from;
        }
        scale
    }

    /// How wide so many ticks are.
    pub fn width(&self, ticks: u64) -> u64 {
        ticks * self.pixels / self.ticks
    }

    /// How many milliseconds so many pixels are, rounded up.
    pub fn ms(&self, pixels: u64) -> u64 {
        pixels * self.ticks * TICK_MS / self.pixels + 1
    }

    /// Where a tick is; in a cut, where the cut begins.
    pub fn x(&self, tick: u64) -> u64 {
        let after = self.pieces.iter().rev().find(|piece| piece.from <= tick);
        let piece = after.unwrap_or(&self.pieces[0]);
        piece.left + self.width(tick.clamp(piece.from, piece.to) - piece.from)
    }

    pub fn pieces(&self) -> &[Piece] {
        &self.pieces
    }

    pub fn right(&self, piece: Piece) -> u64 {
        piece.left + self.width(piece.to - piece.from)
    }

    /// The cuts: where each begins, and how many ticks it leaves out.
    pub fn cuts(&self) -> Vec<(u64, u64)> {
        let cut = |two: &[Piece]| (self.right(two[0]), two[1].from - two[0].to);
        self.pieces.windows(2).map(cut).collect()
    }

    /// The parts between two places that no cut takes away.
    pub fn visible(&self, left: u64, right: u64) -> impl Iterator<Item = (u64, u64)> + '_ {
        let part = move |&piece: &Piece| (piece.left.max(left), self.right(piece).min(right));
        let parts = self.pieces.iter().map(part);
        parts.filter(|(left, right)| left < right)
    }

    /// The stretches as they are drawn, each so wide that it is seen. One that
    /// lies where the one before is still drawn is left out.
    pub fn spans<T: Copy + PartialEq>(&self, stretches: &[Stretch<T>]) -> Vec<Span<T>> {
        let mut spans: Vec<Span<T>> = Vec::new();
        for &Stretch { from, to, value } in stretches {
            let (from, to) = (self.x(from), self.x(to));
            let left = spans.last().map_or(from, |last| from.max(last.right));
            let right = to.max(left + LEAST_WIDTH);
            match spans.last_mut() {
                Some(last) if to <= last.right && from < last.right => {}
                Some(last) if last.value == value => last.right = right,
                _ => spans.push(Span { left, right, value }),
            }
        }
        spans
    }
}

/// From which length on a stretch is cut, and how many ticks all shorter ones
/// have.
fn cut(mut lengths: Vec<u64>) -> (u64, u64) {
    lengths.sort_unstable();
    let mut shorter = 0;
    for (index, &length) in lengths.iter().enumerate() {
        let few = lengths.len() - index <= MOST_CUTS;
        if few && shorter > 0 && length >= SHORTEST_CUT && length > CUT_RATIO * shorter {
            return (length, shorter);
        }
        shorter += length;
    }
    (u64::MAX, shorter)
}
