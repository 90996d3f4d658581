//! Turnout records of version 2: the numbers of groups, SHEET-2 and SHEET-3, and which record is bad, SHEET-11.

use super::{drive_of, zone_of, SheetFault, TurnoutRecord};
use crate::group::{carriers, ALONE};
use crate::set::{holds, members, only, Set};
use crate::station::Turnout;

/// SHEET-3: "has 2 to 8 turnouts".
const LEAST: u32 = 2;
const MOST: u32 = 8;

/// SHEET-11: a record "is bad by its own zone, drive or number, or as the first carrier of a wrong group".
pub(super) fn read_turnouts(records: &[TurnoutRecord], zones: u8) -> Result<Vec<Turnout>, SheetFault> {
    let first_of_wrong = first_carriers_of_wrong_groups(records);
    let mut turnouts = Vec::new();
    for (n, record) in (0..).zip(records) {
        let turnout = turnout_by_itself(*record, zones).filter(|_| !holds(first_of_wrong, n));
        turnouts.push(turnout.ok_or(SheetFault::Turnout(n))?);
    }
    Ok(turnouts)
}

/// SHEET-2: "zone, below Z; the number of its group, 0 to 31, or 255 for alone .. drive".
fn turnout_by_itself([zone, number, drive]: TurnoutRecord, zones: u8) -> Option<Turnout> {
    let group = match number {
        0..=31 => Some(number),
        ALONE => None,
        _ => return None,
    };
    Some(Turnout { zone: zone_of(zone, zones)?, group, drive: drive_of(drive)? })
}

fn first_carriers_of_wrong_groups(records: &[TurnoutRecord]) -> Set {
    let carried = carriers(records.iter().map(|&[_, number, _]| number));
    let wrong = carried.into_iter().filter(|&turnouts| turnouts != 0 && is_wrong(records, turnouts));
    wrong.fold(0, |first, turnouts| first | only(turnouts.trailing_zeros() as u8))
}

/// SHEET-3: "A group .. has 2 to 8 turnouts of one zone and one drive, whichever it is. Any other is a wrong group." By
/// the bytes of the carriers, good by themselves or not.
fn is_wrong(records: &[TurnoutRecord], turnouts: Set) -> bool {
    let mut tied = members(turnouts).map(|n| records[usize::from(n)]);
    let first = tied.next();
    let alike = tied.all(|record| Some(record) == first);
    !alike || !(LEAST..=MOST).contains(&turnouts.count_ones())
}
