//! Turnout records of version 1: partners, SHEET-13, and the groups that they become, SHEET-14.

use super::{drive_of, zone_of, SheetFault, TurnoutRecord};
use crate::station::Turnout;

pub const NO_PARTNER: u8 = 255;

/// SHEET-11: "The first bad record ends the reading".
pub(super) fn read_turnouts(records: &[TurnoutRecord], zones: u8) -> Result<Vec<Turnout>, SheetFault> {
    let mut turnouts = Vec::new();
    for (n, record) in (0..).zip(records) {
        turnouts.push(read_turnout(records, n, *record, zones).ok_or(SheetFault::Turnout(n))?);
    }
    number_crossovers(records, &mut turnouts);
    Ok(turnouts)
}

/// Turnout record `n`, judged against its partner's bytes in the sheet; its group is not known yet.
fn read_turnout(records: &[TurnoutRecord], n: u8, record: TurnoutRecord, zones: u8) -> Option<Turnout> {
    let [zone, partner, drive] = record;
    let turnout = Turnout { zone: zone_of(zone, zones)?, group: None, drive: drive_of(drive)? };
    let fits = partner == NO_PARTNER || partner_fits(records, n, record);
    fits.then_some(turnout)
}

/// SHEET-13: "A partner is below P, is not the turnout itself, names it back, and has the same zone and drive".
fn partner_fits(records: &[TurnoutRecord], n: u8, [zone, partner, drive]: TurnoutRecord) -> bool {
    records.get(usize::from(partner)).is_some_and(|&other| partner != n && other == [zone, n, drive])
}

/// SHEET-14: the crossovers become groups, "numbered from 0 in the order of their lower ends".
fn number_crossovers(records: &[TurnoutRecord], turnouts: &mut [Turnout]) {
    let mut next = 0;
    for (n, &[_, partner, _]) in records.iter().enumerate() {
        let partner = usize::from(partner);
        if n < partner && partner < turnouts.len() {
            turnouts[n].group = Some(next);
            turnouts[partner].group = Some(next);
            next += 1;
        }
    }
}
