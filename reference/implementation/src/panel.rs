//! Reading of the station sheet for the cabin panel. PANEL-1: "A small panel for local cabins uses the same sheets".

use crate::sheet::{self, Limits, SheetFault};
use crate::station::Station;
use crate::writer::RawStation;

/// PANEL-1: "it has lamps for 16 turnouts and 8 routes only".
pub const LIMITS: Limits = Limits { turnouts: 16, routes: 8 };

/// The panel's reading: the desk's, and 9 where the sheet has more turnouts or routes than the panel has lamps for.
pub fn read(sheet: &[u8]) -> Result<Station, SheetFault> {
    sheet::read_within(sheet, LIMITS)
}

/// The station that the panel's reading leaves. PANEL-2, SHEET-12, of a refused sheet: "the station is the empty one".
pub fn station(sheet: &[u8]) -> RawStation {
    read(sheet).map_or_else(|_| RawStation::empty(), |station| RawStation::from(&station))
}

#[cfg(test)]
mod tests;
