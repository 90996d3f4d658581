//! The groups of a station that was read from a sheet: their numbers, their turnouts, and words for a part of one.

use crate::words;
use reference::set::Set;
use reference::station::Station;

/// A group's number and all its turnouts.
#[derive(Clone, Copy, Debug, PartialEq, Eq)]
pub struct Group {
    pub number: u8,
    pub turnouts: Set,
}

/// The groups that have a turnout in the set, lowest number first.
pub fn of(station: &Station, set: Set) -> Vec<Group> {
    let groups = station.groups();
    let touched = groups.iter().filter(|(_, turnouts)| turnouts & set != 0);
    touched.map(|(number, turnouts)| Group { number, turnouts }).collect()
}

/// The turnouts of the set that are of no group.
pub fn alone(station: &Station, set: Set) -> Set {
    of(station, set).iter().fold(set, |rest, group| rest & !group.turnouts)
}

/// `a part of group 0, {0} and not {1}`, for each group that the set splits.
pub fn split(station: &Station, set: Set) -> Vec<String> {
    let part = |(number, turnouts)| {
        format!("a part of group {number}, {} and not {}", words::set(turnouts & set), words::set(turnouts & !set))
    };
    station.groups().split_by(set).map(part).collect()
}
