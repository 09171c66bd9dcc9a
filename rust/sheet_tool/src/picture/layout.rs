//! Where everything stands, from the top down.

use super::svg::Area;

pub const WIDTH: u64 = 1_400;

pub const TITLE_Y: u64 = 32;
pub const SUMMARY_Y: u64 = 52;

/// The times of changes, in levels, the lowest first.
pub const TIME_LEVELS: [u64; 3] = [106, 92, 78];

pub const SELECTED: Row = Row { y: 112, height: 26 };
pub const STATE: Row = Row { y: 142, height: 82 };
pub const READY: Row = Row { y: 232, height: 16 };
pub const REFUSED: Row = Row { y: 396, height: 21 };

/// Where the lines through the rows end, above the refusals' numbers.
pub const LINES_END: u64 = 391;

/// What the bands behind the rows take: the times of changes too.
pub const BANDS: Row = Row { y: 66, height: 325 };

pub const AXIS_Y: u64 = 424;
pub const AXIS_LABELS_Y: u64 = 440;

pub const LEGEND_Y: u64 = 468;
pub const NOTES_Y: u64 = 492;
pub const NOTE_HEIGHT: u64 = 18;

#[derive(Clone, Copy)]
pub struct Row {
    pub y: u64,
    pub height: u64,
}

/// The row of an input, from 1.
pub fn input(number: u8) -> Row {
    let y = 256 + 17 * (u64::from(number) - 1);
    Row { y, height: 11 }
}

impl Row {
    pub fn middle(self) -> u64 {
        self.y + self.height / 2
    }

    pub fn bottom(self) -> u64 {
        self.y + self.height
    }

    /// The part of the row between two places.
    pub fn area(self, left: u64, right: u64) -> Area {
        Area {
            x: left,
            y: self.y,
            width: right - left,
            height: self.height,
        }
    }
}
