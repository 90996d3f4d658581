//! Stations as they stand and sets for the test that a set splits no group. VALUE-1, VALUE-2.

use crate::rng::Rng;
use reference::group::{Groups, ALONE};
use reference::set::{only, Set};
use reference::writer::{RawStation, RawTurnout};

/// Counts of turnouts at both ends of their range and past it.
const COUNTS: [(u32, u8); 8] = [(1, 0), (1, 1), (1, 2), (2, 63), (5, 64), (2, 65), (1, 128), (4, 255)];

/// The last turnout of 64, the most that a station has.
pub const LAST: u8 = 63;

/// What numbers the 64 records carry at first.
#[derive(Clone, Copy)]
enum Carried {
    Alone,
    /// Groups of two: 0 and 1 to 62 and 63.
    Neighbours,
    /// Groups of two: 0 and 63 to 31 and 32.
    EndToEnd,
    Eights,
    /// One group of all.
    All,
    /// Any number below this.
    Any(u8),
}

const CARRIED: [(u32, Carried); 7] = [
    (3, Carried::Alone),
    (1, Carried::Neighbours),
    (1, Carried::EndToEnd),
    (2, Carried::Eights),
    (1, Carried::All),
    (1, Carried::Any(32)),
    (1, Carried::Any(4)),
];

impl Carried {
    fn number(self, rng: &mut Rng, n: u8) -> u8 {
        match self {
            Carried::Alone => ALONE,
            Carried::Neighbours => n / 2,
            Carried::EndToEnd => n.min(LAST - n),
            Carried::Eights => n / 8,
            Carried::All => 31,
            Carried::Any(below) => rng.index(usize::from(below)) as u8,
        }
    }
}

/// 64 records with groups of some sort, then a few numbers put; any count. Zones and drives do not matter here, and
/// are often several.
pub fn made(rng: &mut Rng) -> RawStation {
    let turnouts = if rng.chance(10) { rng.byte() } else { rng.weighted(&COUNTS) };
    let mut station = RawStation { turnouts, zones: 1, ..RawStation::empty() };
    let (carried, [zones, drives]) = (rng.weighted(&CARRIED), [(); 2].map(|()| rng.pick(&[1, 1, 3])));
    for (n, record) in (0u8..).zip(&mut station.turnout_records) {
        let group = carried.number(rng, n);
        *record = RawTurnout { zone: rng.index(zones) as u8, group, drive: rng.index(drives) as u8 };
    }
    for _ in 0..rng.within(0..=3) {
        put(rng, &mut station);
    }
    station
}

/// The last turnout below P; 0 where there is none.
fn last(station: &RawStation) -> u8 {
    station.turnouts.clamp(1, LAST + 1) - 1
}

/// A number put on one turnout or a few.
fn put(rng: &mut Rng, station: &mut RawStation) {
    let last = last(station);
    let [any, other] = [(); 2].map(|()| rng.within(0..=63) as u8);
    let number = rng.pick(&[0, 1, 30, 31]);
    let turnout = rng.pick(&[0, any, last, LAST]);
    match rng.within(0..=7) {
        // A number that no group has.
        0 | 1 => carry(station, &[turnout, any, other], rng.pick(&[32, 33, 40, 63, 64, 128, 254])),
        2 => carry(station, &[turnout], ALONE),
        // Often a lone number.
        3 => carry(station, &[turnout], number),
        // One below P and one past it.
        4 => carry(station, &[last, (last + 1).min(LAST)], number),
        5 => carry(station, &[0, LAST], number),
        6 => carry(station, &[last, any], number),
        _ => carry(station, &[any], rng.byte()),
    }
}

fn carry(station: &mut RawStation, turnouts: &[u8], number: u8) {
    for &turnout in turnouts {
        station.turnout_records[usize::from(turnout)].group = number;
    }
}

/// A set to try on the station: whole groups, a part of one, and turnouts at the ends of the range among them.
pub fn some_set(rng: &mut Rng, station: &RawStation) -> Set {
    let groups = station.groups();
    let each: Vec<Set> = groups.iter().map(|(_, group)| group).collect();
    let last = last(station);
    match rng.within(0..=11) {
        0 => 0,
        1 => Set::MAX,
        2 => rng.next(),
        3 => rng.part(Set::MAX, 5),
        4 | 5 => whole(&groups, rng.part(Set::MAX, 5)),
        6 => only(rng.pick(&[0, last, (last + 1).min(LAST), LAST])),
        7 => only(rng.within(0..=63) as u8),
        // A part of one group, the others whole.
        _ if !each.is_empty() => {
            let group = rng.pick(&each);
            let others = whole(&groups, rng.part(Set::MAX, 5)) & !group;
            others | part_of(rng, group)
        }
        _ => whole(&groups, rng.part(Set::MAX, 50)),
    }
}

/// One turnout of a group, all but one, or any part; the one is often its first or its last.
fn part_of(rng: &mut Rng, group: Set) -> Set {
    let (first, last) = (group.trailing_zeros() as u8, LAST - group.leading_zeros() as u8);
    let any = rng.member(group);
    let one = only(rng.pick(&[first, last, any]));
    match rng.within(0..=4) {
        0 | 1 => one,
        2 | 3 => group & !one,
        _ => rng.part(group, 50),
    }
}

/// The set with the whole of each group it touches.
fn whole(groups: &Groups, set: Set) -> Set {
    groups.split_by(set).fold(set, |whole, (_, group)| whole | group)
}
