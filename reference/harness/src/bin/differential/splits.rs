//! Comparisons of the test that a set splits no group, on stations as they stand, and counts of what occurred.
//! KIND-1.2, KIND-10.2, VALUE-1, VALUE-2.

use crate::compare::{Comparison, Files};
use crate::group_stations::{made, some_set, LAST};
use crate::Difference;
use harness::{library, trial};
use reference::set::{members, only, Set};
use reference::writer::{RawStation, RawTurnout};
use std::ops::RangeInclusive;

/// Stations made for it in each round, and the sets tried on each. With those tried on the writer's stations that is
/// about one input in fifteen.
const STATIONS: usize = 4;
const SETS: usize = 3;

/// A count of turnouts over this is read as this.
const LIMIT: u8 = LAST + 1;

impl Comparison {
    /// Sets on stations made for the test.
    pub fn splits(&mut self) -> Result<(), Difference> {
        for _ in 0..STATIONS {
            let station = made(&mut self.rng);
            for _ in 0..SETS {
                self.some_split(&station)?;
            }
        }
        Ok(())
    }

    /// Some set tried on a station as it stands.
    pub fn some_split(&mut self, station: &RawStation) -> Result<(), Difference> {
        let set = some_set(&mut self.rng, station);
        let values = trial::values(station);
        let reference = station.splits_group(set);
        let library = library::splits(&values, set);
        self.tally.splits(station, set);
        let files = Files { sheet: &values, journal: &[] };
        let call = || format!("trial_splits(values in the file sheet, {set:#018x})");
        files.same(call, library, u8::from(reference))?;
        if station.turnouts <= LIMIT {
            return Ok(());
        }
        // VALUE-1: "a count over its limit is read as the limit". On the library's own answers.
        let limited = trial::values(&RawStation { turnouts: LIMIT, ..station.clone() });
        let as_limit = || format!("{}: a count of {} read as 64", call(), station.turnouts);
        files.same(as_limit, library, library::splits(&limited, set))
    }
}

const SORTS: [&str; 19] = [
    "split",
    "not split",
    "split, a group of two alone",
    "split, a group of 3 to 8 alone",
    "split, a group of more than 8 alone",
    "split, a group of several zones alone",
    "split, a group of several drives alone",
    "split, number 0 alone",
    "split, number 31 alone",
    "split by turnout 0 alone",
    "split by the last turnout below P alone",
    "split by turnout 63 alone",
    "count over 64, split",
    "count over 64, not split",
    "count 255, split by turnout 63 alone",
    "not split, but for a number from 32 to 254",
    "not split, but for turnouts not below P",
    "not split, a lone number in the set",
    "station of no turnouts",
];

/// Sets tried on stations as they stand, by what is in them. A group is split alone where no other is; it is split by a
/// turnout alone where that is all of it that the set has, or all that it lacks.
#[derive(Default)]
pub struct Splits([u64; 19]);

impl Splits {
    /// A set, and the station on which it is tried.
    pub fn tried(&mut self, station: &RawStation, set: Set) {
        let turnouts = station.turnouts.min(LIMIT);
        let groups = station.groups();
        let split: Vec<(u8, Set)> = groups.split_by(set).collect();
        let (is_split, over) = (!split.is_empty(), station.turnouts > LIMIT);
        let (number, group) = if let [alone] = split[..] { alone } else { (u8::MAX, 0) };
        let by = |turnout: u8| group != 0 && [group & set, group & !set].contains(&only(turnout));
        let several = |field: fn(&RawTurnout) -> u8| {
            let of_group: Vec<u8> = members(group).map(|n| field(&station.turnout_records[usize::from(n)])).collect();
            of_group.iter().any(|value| *value != of_group[0])
        };
        let all_records = RawStation { turnouts: LIMIT, ..station.clone() };
        let occurred = [
            is_split,
            !is_split,
            group.count_ones() == 2,
            (3..=8).contains(&group.count_ones()),
            group.count_ones() > 8,
            several(|turnout| turnout.zone),
            several(|turnout| turnout.drive),
            number == 0,
            number == 31,
            by(0),
            turnouts.checked_sub(1).is_some_and(by),
            by(LAST),
            over && is_split,
            over && !is_split,
            station.turnouts == 255 && by(LAST),
            !is_split && carried(station, 32..=254).any(|carriers| carriers & set != 0 && carriers & !set != 0),
            !is_split && all_records.splits_group(set),
            !is_split && carried(station, 0..=31).any(|carriers| carriers.count_ones() == 1 && carriers & set != 0),
            turnouts == 0,
        ];
        for (count, occurred) in self.0.iter_mut().zip(occurred) {
            *count += u64::from(occurred);
        }
    }

    /// Sets tried.
    pub fn sets(&self) -> u64 {
        let [split, not_split, ..] = self.0;
        split + not_split
    }

    pub fn counts(&self) -> Vec<(String, u64)> {
        SORTS.iter().zip(self.0).map(|(sort, count)| (format!("set, {sort}"), count)).collect()
    }
}

/// The turnouts below P that carry each of these numbers.
fn carried(station: &RawStation, numbers: RangeInclusive<u8>) -> impl Iterator<Item = Set> {
    let mut carriers = [0; 256];
    for (n, record) in (0..station.turnouts.min(LIMIT)).zip(&station.turnout_records) {
        carriers[usize::from(record.group)] |= only(n);
    }
    numbers.map(move |number| carriers[usize::from(number)])
}
