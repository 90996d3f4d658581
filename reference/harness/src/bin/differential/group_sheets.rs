//! Sheets about groups: wrong groups put into good sheets of version 2, and turnouts of both versions with any numbers
//! of groups and any partners. SHEET-3, SHEET-11, SHEET-13.

use crate::compare::Comparison;
use crate::rng::Rng;
use crate::stations::put;
use crate::Difference;
use reference::drafts::Sheet;
use reference::group::ALONE;

/// Sheets of each version in each round.
const SHEETS: usize = 2;

impl Comparison {
    /// Turnouts with any groups, and with any partners.
    pub fn group_sheets(&mut self) -> Result<(), Difference> {
        for _ in 0..SHEETS {
            let groups = any_groups(&mut self.rng);
            self.sheet(&groups.bytes())?;
            let partners = any_partners(&mut self.rng);
            self.sheet(&partners.bytes())?;
        }
        Ok(())
    }
}

/// Where turnout record `n` starts.
fn at(n: usize) -> usize {
    8 + 3 * n
}

/// A good sheet of version 2 damaged in its groups: a number that no group has, a lone number, a ninth turnout and
/// more, another zone, another drive; by chance still good.
pub fn damage_group(rng: &mut Rng, sheet: &Sheet, bytes: &mut [u8]) {
    let turnouts = &sheet.turnouts;
    let n = rng.index(turnouts.len());
    let [zone, number, drive] = turnouts[n];
    let of_group: Vec<usize> = (0..turnouts.len()).filter(|&other| turnouts[other][1] == number).collect();
    let carrier = rng.pick(&of_group);
    match rng.within(0..=5) {
        0 => put(bytes, at(n) + 1, rng.within(32..=254) as u8),
        1 => put(bytes, at(n) + 1, rng.within(0..=31) as u8),
        2 => put(bytes, at(carrier), rng.pick(&[zone.wrapping_sub(1), zone + 1, sheet.zones])),
        3 => put(bytes, at(carrier) + 2, rng.pick(&[1 - drive, 1 - drive, 2])),
        _ => {
            // Its record put over others, up to eight, nine or ten carriers.
            let more = rng.pick(&[8, 9, 9, 10usize]).saturating_sub(of_group.len());
            let number = if number == ALONE { rng.within(0..=31) as u8 } else { number };
            put(bytes, at(n) + 1, number);
            let others = (0..turnouts.len()).filter(|other| !of_group.contains(other));
            for other in others.take(more) {
                [zone, number, drive].into_iter().enumerate().for_each(|(k, byte)| put(bytes, at(other) + k, byte));
            }
        }
    }
}

/// Version 2, without routes: groups of 1 to 10 turnouts strewn among turnouts alone, mostly of one zone and drive;
/// now and then a number that no group has, or a record that is bad by itself.
fn any_groups(rng: &mut Rng) -> Sheet {
    let mut sheet = Sheet::of_version_2(rng.within(1..=3) as u8);
    let mut numbers: Vec<u8> = (0..32).collect();
    for _ in 0..rng.within(1..=4) {
        let number = numbers.swap_remove(rng.index(numbers.len()));
        let (zone, drive) = (rng.index(usize::from(sheet.zones)) as u8, rng.within(0..=1) as u8);
        let size = rng.weighted(&[(1, 1), (4, 2), (3, 3), (2, 4), (2, 5), (2, 6), (2, 7), (4, 8), (1, 9), (1, 10)]);
        for _ in 0..size {
            let place = rng.index(sheet.turnouts.len() + 1);
            sheet.turnouts.insert(place, [zone, number, drive]);
        }
    }
    for _ in 0..rng.within(0..=4) {
        let place = rng.index(sheet.turnouts.len() + 1);
        sheet.turnouts.insert(place, [0, ALONE, rng.within(0..=1) as u8]);
    }
    for _ in 0..rng.weighted(&[(5, 0), (4, 1), (2, 2)]) {
        let n = rng.index(sheet.turnouts.len());
        any_field(rng, &mut sheet, n);
    }
    sheet
}

/// One field of the record changed.
fn any_field(rng: &mut Rng, sheet: &mut Sheet, n: usize) {
    let zones = sheet.zones;
    let record = &mut sheet.turnouts[n];
    match rng.within(0..=4) {
        0 => record[0] = rng.within(0..=u32::from(zones)) as u8,
        1 => record[1] = rng.within(0..=31) as u8,
        2 => record[1] = rng.pick(&[32, 33, 63, 64, 128, 254, ALONE]),
        3 => record[1] = rng.within(32..=254) as u8,
        _ => record[2] = rng.within(0..=2) as u8,
    }
}

/// Version 1, without routes: crossovers far apart, across each other and within each other, and a few partners put.
fn any_partners(rng: &mut Rng) -> Sheet {
    let mut sheet = Sheet::new(rng.within(1..=2) as u8);
    let turnouts = rng.within(1..=20) as usize;
    sheet.turnouts = vec![[0, ALONE, 0]; turnouts];
    let mut free: Vec<usize> = (0..turnouts).collect();
    while free.len() > 1 && rng.chance(80) {
        let [one, other] = [(); 2].map(|()| free.swap_remove(rng.index(free.len())));
        let (zone, drive) = (rng.index(usize::from(sheet.zones)) as u8, rng.within(0..=1) as u8);
        sheet.turnouts[one] = [zone, other as u8, drive];
        sheet.turnouts[other] = [zone, one as u8, drive];
    }
    if rng.chance(40) {
        let n = rng.index(turnouts);
        let partner = rng.within(0..=turnouts as u32) as u8;
        match rng.within(0..=3) {
            0 => sheet.turnouts[n][1] = partner,
            1 => sheet.turnouts[n][1] = rng.pick(&[n as u8, 64, 254, ALONE]),
            2 => sheet.turnouts[n][0] ^= 1,
            _ => sheet.turnouts[n][2] = rng.within(0..=2) as u8,
        }
    }
    sheet
}
