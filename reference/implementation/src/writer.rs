//! Writing of the station sheet. WRITE-1, WRITE-2: "It turns a station into sheet bytes in a lent buffer, so that
//! reading them yields that station"; "A sheet of version 2 that is read and written comes out byte for byte."

use crate::group::{Groups, ALONE};
use crate::refusal::{number, Refusal};
use crate::set::Set;
use crate::sheet::{self, ELECTRIC, HAND, HEADER, ROUTE, TURNOUT};
use crate::station::{Drive, Route, Station, Turnout};

/// Records of each sort in a station, those past its counts included.
pub const RECORDS: usize = 64;

/// A turnout as it stands, any numbers in it.
#[derive(Clone, Copy, Debug, Default, PartialEq, Eq)]
pub struct RawTurnout {
    pub zone: u8,
    pub group: u8,
    pub drive: u8,
}

/// A station as it stands: any counts, and any numbers in its records, whether or not a sheet describes it.
#[derive(Clone, Debug, PartialEq, Eq)]
pub struct RawStation {
    /// P.
    pub turnouts: u8,
    /// R.
    pub routes: u8,
    /// Z.
    pub zones: u8,
    pub turnout_records: [RawTurnout; RECORDS],
    pub route_records: [Route; RECORDS],
}

impl RawStation {
    /// SHEET-12: "empty station, every number 0".
    pub fn empty() -> RawStation {
        RawStation {
            turnouts: 0,
            routes: 0,
            zones: 0,
            turnout_records: [RawTurnout::default(); RECORDS],
            route_records: [Route::default(); RECORDS],
        }
    }

    /// SHEET-10: "The length is exactly 8 + 3P + 33R."
    pub fn sheet_length(&self) -> usize {
        HEADER + TURNOUT * usize::from(self.turnouts) + ROUTE * usize::from(self.routes)
    }

    /// The groups among the turnouts below P, as their numbers stand. VALUE-1: "A count over its limit is read as the
    /// limit".
    pub fn groups(&self) -> Groups {
        Groups::of(self.turnout_records.iter().take(usize::from(self.turnouts)).map(|turnout| turnout.group))
    }

    pub fn splits_group(&self, set: Set) -> bool {
        self.groups().splits(set)
    }
}

impl From<&Station> for RawStation {
    /// SHEET-12: "Records past P and R are 0 in the station."
    fn from(station: &Station) -> RawStation {
        let mut raw = RawStation {
            turnouts: station.turnouts.len() as u8,
            routes: station.routes.len() as u8,
            zones: station.zones,
            ..RawStation::empty()
        };
        for (record, turnout) in raw.turnout_records.iter_mut().zip(&station.turnouts) {
            *record = raw_turnout(turnout);
        }
        for (record, route) in raw.route_records.iter_mut().zip(&station.routes) {
            *record = *route;
        }
        raw
    }
}

/// SHEET-2: "the number of its group, 0 to 31, or 255 for alone ..; drive, 0 electric or 1 hand with key lock".
fn raw_turnout(turnout: &Turnout) -> RawTurnout {
    let drive = match turnout.drive {
        Drive::Electric => ELECTRIC,
        Drive::Hand => HAND,
    };
    RawTurnout { zone: turnout.zone, group: turnout.group.unwrap_or(ALONE), drive }
}

/// WRITE-3, WRITE-4: "Turned away: 7, a station that, as it stands, no sheet describes; then 8, a buffer shorter than
/// the sheet; both after nothing else, with the buffer untouched." Accepted, WRITE-1: "Bytes past the sheet's length
/// are untouched."
pub fn write(station: &RawStation, buffer: &mut [u8]) -> Result<(), Refusal> {
    let sheet = sheet_of(station).ok_or(Refusal::NoSheet)?;
    let part = buffer.get_mut(..sheet.len()).ok_or(Refusal::ShortBuffer)?;
    part.copy_from_slice(&sheet);
    Ok(())
}

/// The sheet that describes the station, if one does: its counts and the records below them, laid out as a sheet, are
/// read without fault, and past them the station has what every station has that was read.
fn sheet_of(station: &RawStation) -> Option<Vec<u8>> {
    let turnouts = station.turnout_records.get(..usize::from(station.turnouts))?;
    let routes = station.route_records.get(..usize::from(station.routes))?;
    let sheet = lay_out([station.turnouts, station.routes, station.zones], turnouts, routes);
    let described = sheet::read(&sheet).is_ok() && zeros_past_counts(station);
    described.then_some(sheet)
}

/// WRITE-1: "of version 2". SHEET-1, SHEET-2, SHEET-4: "the letters SPT; version, 16 bits ..; the counts P of turnouts
/// .., R of routes .. and Z of zones .., a byte each. Then P turnout records of 3 bytes: zone ..; the number of its
/// group ..; drive .. Then R routes of 33 bytes: zone, then the sets run over, flank, exit zone and reverse." Any
/// counts and any records.
pub fn lay_out(counts: [u8; 3], turnouts: &[RawTurnout], routes: &[Route]) -> Vec<u8> {
    let mut sheet = Vec::with_capacity(HEADER + TURNOUT * turnouts.len() + ROUTE * routes.len());
    sheet.extend(b"SPT");
    sheet.extend(2u16.to_be_bytes());
    sheet.extend(counts);
    for turnout in turnouts {
        sheet.extend([turnout.zone, turnout.group, turnout.drive]);
    }
    for route in routes {
        sheet.push(route.zone);
        for set in [route.run_over, route.flank, route.exit_zone, route.reverse] {
            sheet.extend(set.to_be_bytes());
        }
    }
    sheet
}

/// SHEET-12: "Records past P and R are 0 in the station."
fn zeros_past_counts(station: &RawStation) -> bool {
    let mut past_turnouts = station.turnout_records.iter().skip(usize::from(station.turnouts));
    let mut past_routes = station.route_records.iter().skip(usize::from(station.routes));
    past_turnouts.all(|turnout| *turnout == RawTurnout::default())
        && past_routes.all(|route| *route == Route::default())
}

/// WRITE-5: a sheet of either version read from one buffer and written into another, in version 2; code and index of
/// the bad record. The sheet's numbers come first, then 8; never 7, since the station was read. A refusal leaves the
/// buffer as it was.
pub fn copy_sheet(sheet: &[u8], buffer: &mut [u8]) -> [u8; 2] {
    match sheet::read(sheet) {
        Ok(station) => [number(&write(&RawStation::from(&station), buffer)), 0],
        Err(fault) => [fault.number(), fault.index()],
    }
}

#[cfg(test)]
mod tests;
