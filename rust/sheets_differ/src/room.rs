//! How long a lent output is beside what is to be written to it.

use shared::random::Random;

#[derive(Clone, Copy, Debug, PartialEq, Eq)]
pub enum Room {
    Nothing,
    OneByteShort,
    Exact,
    Longer,
}

impl Room {
    pub const ALL: [Room; 4] = [Room::Nothing, Room::OneByteShort, Room::Exact, Room::Longer];

    pub fn name(self) -> &'static str {
        match self {
            Room::Nothing => "of no byte",
            Room::OneByteShort => "one byte too short",
            Room::Exact => "of the length needed",
            Room::Longer => "longer than needed",
        }
    }

    /// The length of such an output, if so many bytes are to be written; none
    /// if there is no such length.
    pub fn length(self, exact: usize, random: &mut Random) -> Option<usize> {
        match self {
            Room::Nothing => Some(0),
            Room::OneByteShort => exact.checked_sub(1),
            Room::Exact => Some(exact),
            Room::Longer => Some(exact + random.between(1, 100) as usize),
        }
    }

    /// Whether there is room, where anything is to be written.
    pub fn suffices(self) -> bool {
        matches!(self, Room::Exact | Room::Longer)
    }

    /// Each for one output with each for another. Of the four in which both
    /// suffice, which take the most time, there are two: both of one kind, or
    /// each of the other.
    pub fn pairs(random: &mut Random) -> Vec<(Room, Room)> {
        let alike = random.one_in(2);
        let all = Room::ALL
            .iter()
            .flat_map(|&one| Room::ALL.map(|other| (one, other)));
        all.filter(|(one, other)| {
            let both = one.suffices() && other.suffices();
            !both || (one == other) == alike
        })
        .collect()
    }
}
