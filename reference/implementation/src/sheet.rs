//! Reading of the station sheet, SHEET-1 to SHEET-14. The turnout records of its two versions stand in `version_1` and
//! `version_2`. The cabin panel reads it with limits of its own (`panel`).

mod version_1;
mod version_2;

use crate::group::Groups;
use crate::set::{members, Set};
use crate::station::{Drive, Route, Station};
pub use version_1::NO_PARTNER;

pub const HEADER: usize = 8;
pub const TURNOUT: usize = 3;
pub const ROUTE: usize = 33;
pub const ELECTRIC: u8 = 0;
pub const HAND: u8 = 1;

/// The most turnouts and routes that a reader takes.
#[derive(Clone, Copy, Debug, PartialEq, Eq)]
pub struct Limits {
    pub turnouts: u8,
    pub routes: u8,
}

/// PANEL-1: "the desk keeps 64 and 64", the most that a sheet has.
const DESK: Limits = Limits { turnouts: 64, routes: 64 };

/// Zone; partner in version 1, the group's number in version 2; drive.
type TurnoutRecord = [u8; TURNOUT];

/// Why a sheet is refused; a bad record comes with its index.
#[derive(Clone, Copy, Debug, PartialEq, Eq)]
pub enum SheetFault {
    Length,
    Mark,
    Version,
    Counts,
    /// PANEL-2: more turnouts or routes than the reader takes.
    Limits,
    Turnout(u8),
    Route(u8),
}

impl SheetFault {
    pub fn number(self) -> u8 {
        match self {
            SheetFault::Length => 1,
            SheetFault::Mark => 2,
            SheetFault::Version => 3,
            SheetFault::Counts => 4,
            SheetFault::Turnout(_) => 5,
            SheetFault::Route(_) => 6,
            SheetFault::Limits => 9,
        }
    }

    /// SHEET-11: "with record index from 0 (else 0)".
    pub fn index(self) -> u8 {
        match self {
            SheetFault::Turnout(n) | SheetFault::Route(n) => n,
            _ => 0,
        }
    }
}

/// The desk's reading. Counts in range are within its limits: it never gives 9.
pub fn read(sheet: &[u8]) -> Result<Station, SheetFault> {
    read_within(sheet, DESK)
}

/// SHEET-11: "Order: under 8 bytes, mark, version, counts (zone byte included), length, turnouts, routes;
/// the first bad record ends the reading." PANEL-2: 9 "after the counts are found in range and before the length".
pub(crate) fn read_within(sheet: &[u8], limits: Limits) -> Result<Station, SheetFault> {
    let Some((header, records)) = sheet.split_first_chunk::<HEADER>() else {
        return Err(SheetFault::Length);
    };
    let [s, p, t, version_high, version_low, turnouts, routes, zones] = *header;
    if [s, p, t] != *b"SPT" {
        return Err(SheetFault::Mark);
    }
    let read_turnouts = match u16::from_be_bytes([version_high, version_low]) {
        1 => version_1::read_turnouts,
        2 => version_2::read_turnouts,
        _ => return Err(SheetFault::Version),
    };
    if !(1..=64).contains(&turnouts) || routes > 64 || !(1..=8).contains(&zones) {
        return Err(SheetFault::Counts);
    }
    if turnouts > limits.turnouts || routes > limits.routes {
        return Err(SheetFault::Limits);
    }
    let (turnout_bytes, route_bytes) = (TURNOUT * usize::from(turnouts), ROUTE * usize::from(routes));
    if records.len() != turnout_bytes + route_bytes {
        return Err(SheetFault::Length);
    }
    let (turnout_records, route_records) = records.split_at(turnout_bytes);
    let turnout_records: Vec<TurnoutRecord> =
        turnout_records.chunks_exact(TURNOUT).map(|record| [record[0], record[1], record[2]]).collect();
    let turnouts = read_turnouts(&turnout_records, zones)?;
    let mut station = Station { zones, turnouts, routes: Vec::new() };
    let groups = station.groups();
    for (n, record) in (0..routes).zip(route_records.chunks_exact(ROUTE)) {
        let route = route_fields(record);
        if !route_fits(&route, &station, &groups) {
            return Err(SheetFault::Route(n));
        }
        station.routes.push(route);
    }
    Ok(station)
}

/// SHEET-2: "zone, below Z".
fn zone_of(zone: u8, zones: u8) -> Option<u8> {
    (zone < zones).then_some(zone)
}

/// SHEET-2: "drive, 0 electric or 1 hand with key lock".
fn drive_of(drive: u8) -> Option<Drive> {
    match drive {
        ELECTRIC => Some(Drive::Electric),
        HAND => Some(Drive::Hand),
        _ => None,
    }
}

/// SHEET-4: "Then R routes of 33 bytes: zone, then the sets run over, flank, exit zone, reverse."
pub fn route_fields(record: &[u8]) -> Route {
    let set =
        |start: usize| -> Set { record[start..start + 8].iter().fold(0, |set, &byte| set << 8 | Set::from(byte)) };
    Route { zone: record[0], run_over: set(1), flank: set(9), exit_zone: set(17), reverse: set(25) }
}

fn route_fits(route: &Route, station: &Station, groups: &Groups) -> bool {
    pairwise_disjoint(route)
        && lies_in_zone(route, station)
        && route.run_over != 0
        && reverse_within_union(route)
        && flank_takes_groups_whole(route, groups)
        && same_position(route, groups)
}

/// SHEET-5: "The first three are pairwise disjoint".
pub fn pairwise_disjoint(route: &Route) -> bool {
    let run_over_apart = route.run_over & (route.flank | route.exit_zone) == 0;
    let flank_apart = route.flank & route.exit_zone == 0;
    run_over_apart && flank_apart
}

/// SHEET-6: "It lies among the P turnouts, in the route's zone".
fn lies_in_zone(route: &Route, station: &Station) -> bool {
    members(route.named()).all(|n| station.turnout(n).is_some_and(|turnout| turnout.zone == route.zone))
}

/// SHEET-7: "reverse lies within the union".
pub fn reverse_within_union(route: &Route) -> bool {
    route.reverse & !route.named() == 0
}

/// SHEET-8: "The flank takes a group whole or not at all: the whole group of a flank turnout is flank (Art. 3.24)."
pub fn flank_takes_groups_whole(route: &Route, groups: &Groups) -> bool {
    !groups.splits(route.flank)
}

/// SHEET-9: "The turnouts of a group of two, where both are named, have the same position. Of larger groups nothing is
/// asked here".
pub fn same_position(route: &Route, groups: &Groups) -> bool {
    let both_named = |ends: Set| ends.count_ones() == 2 && ends & !route.named() == 0;
    groups.iter().filter(|&(_, ends)| both_named(ends)).all(|(_, ends)| [0, ends].contains(&(route.reverse & ends)))
}

#[cfg(test)]
mod tests;
