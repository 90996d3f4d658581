//! Groups of turnouts, tied by the keys of their locks or as the ends of a crossover: who carries which number, and
//! which groups a set splits. Said once for the station that a sheet gives and for one as it stands.

use crate::set::{holds, only, Set};

/// SHEET-2: "the number of its group, 0 to 31, or 255 for alone".
pub const ALONE: u8 = 255;
pub const NUMBERS: usize = 32;

/// VALUE-1: a count of turnouts over its limit is read as the limit.
const MOST_TURNOUTS: u8 = 64;

/// The carriers of each number from 0 to 31, by the numbers that turnouts 0, 1, .. carry; other numbers are alone.
pub fn carriers(numbers: impl Iterator<Item = u8>) -> [Set; NUMBERS] {
    let mut carriers = [0; NUMBERS];
    for (turnout, number) in (0..MOST_TURNOUTS).zip(numbers) {
        if let Some(set) = carriers.get_mut(usize::from(number)) {
            *set |= only(turnout);
        }
    }
    carriers
}

/// The groups of a station: at each number its turnouts, none where it is no group's.
#[derive(Clone, Copy, Debug, PartialEq, Eq)]
pub struct Groups([Set; NUMBERS]);

impl Groups {
    /// By the numbers that turnouts 0, 1, .. carry. VALUE-2: a number from 32 on, "or one that a single turnout below P
    /// carries, is read as alone"; one from 0 to 31 "that two or more turnouts below P carry is a group, also where it
    /// has more than 8 turnouts, or several zones or drives".
    pub fn of(numbers: impl Iterator<Item = u8>) -> Groups {
        Groups(carriers(numbers).map(|set| if set.count_ones() >= 2 { set } else { 0 }))
    }

    /// The groups, lowest number first, each with its turnouts.
    pub fn iter(&self) -> impl Iterator<Item = (u8, Set)> + '_ {
        (0..).zip(self.0).filter(|&(_, turnouts)| turnouts != 0)
    }

    /// The turnouts of this turnout's group; none where it is alone or not below P.
    pub fn of_turnout(&self, n: u8) -> Set {
        self.0.into_iter().find(|&turnouts| holds(turnouts, n)).unwrap_or(0)
    }

    /// The groups that the set splits: it has turnouts of them, and they have turnouts not in it.
    pub fn split_by(&self, set: Set) -> impl Iterator<Item = (u8, Set)> + '_ {
        self.iter().filter(move |&(_, turnouts)| turnouts & set != 0 && turnouts & !set != 0)
    }

    /// Does the set take a part of a group without the rest?
    pub fn splits(&self, set: Set) -> bool {
        self.split_by(set).next().is_some()
    }
}

#[cfg(test)]
mod tests;
