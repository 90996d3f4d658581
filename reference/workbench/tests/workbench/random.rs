//! Random stations and journals for the program, the same in each run.

use reference::builders::message;
use reference::drafts::Sheet;
use reference::group::ALONE;
use reference::message::{Message, RECORD};
use reference::sheet;

/// Pseudo-random numbers.
pub struct Random(pub u64);

impl Random {
    pub fn below(&mut self, limit: u64) -> u64 {
        self.0 = self.0.wrapping_mul(6364136223846793005).wrapping_add(1442695040888963407);
        (self.0 >> 33) % limit
    }
}

/// Messages near the rules of station K, so that most checks are met now and then.
pub fn random_records(random: &mut Random, count: u32) -> Vec<[u8; RECORD]> {
    (0..count).map(|n| random_record(random, n)).collect()
}

/// Record `n`, now and then with a byte at random, but not in time and id: a late time would end the rest by 14, a rare
/// id stand for long.
fn random_record(random: &mut Random, n: u32) -> [u8; RECORD] {
    let mut record = random_message(random, n).to_bytes();
    let mut pick = |limit: u64| random.below(limit);
    if pick(20) == 0 {
        record[[0, 10 + pick(22) as usize][pick(2) as usize]] = pick(256) as u8;
    }
    record
}

fn random_message(random: &mut Random, n: u32) -> Message {
    let mut pick = |limit: u64| random.below(limit);
    let kind = [1, 2, 3, 4, 5, 6, 6, 6, 6, 7, 7, 8, 9, 10, 11, 12, 13, 13][pick(18) as usize];
    let id = if kind == 12 { 0 } else { 7 + u32::from(pick(8) == 0) };
    let time = 10 * n - pick(16).min(10 * u64::from(n)) as u32;
    let zone = u8::from(pick(40) == 0);
    with_fields(random, message(kind, id).at(time).in_zone(zone))
}

/// The message with sets and details as its kind has them.
fn with_fields(random: &mut Random, made: Message) -> Message {
    let mut pick = |limit: u64| random.below(limit);
    let some = [0, 0b1, 0b11, 0b11, 0b111, 0b100, 0b1000];
    match made.kind {
        1 => Message { a: some[pick(7) as usize], ..made }.d(0, 1 + pick(2) as u8),
        4 => Message { a: some[pick(7) as usize], b: [0, 0b100][pick(2) as usize], ..made },
        5 => made.d(0, u8::from(pick(8) == 0)),
        6 => Message { d: random_clearance(random), ..made },
        7 => made.d(0, 1 + pick(2) as u8),
        10 => Message { a: some[pick(7) as usize], ..made },
        12 => made.d(0, u8::from(pick(4) != 0)),
        13 => made.d(0, pick(3) as u8).d(1, pick(8).clamp(1, 2) as u8),
        _ => made,
    }
}

/// Turnout, declaration, position, clamp, channel, whole group.
fn random_clearance(random: &mut Random) -> [u8; 6] {
    let mut pick = |limit: u64| random.below(limit);
    let details = [
        pick(3),
        1 + pick(9),
        u64::from(pick(6) == 0),
        pick(6).saturating_sub(3),
        1 + u64::from(pick(4) == 0),
        [0, 0, 0, 1, 1, 2][pick(6) as usize],
    ];
    details.map(|detail| detail as u8)
}

/// A zone and its turnouts that stay together: a group or one turnout.
type Unit = (u64, Vec<u8>);

/// Of version 1: crossovers and single turnouts in random zones.
pub fn random_station(random: &mut Random) -> Sheet {
    let zones = 1 + random.below(8);
    let mut sheet = Sheet::new(zones as u8);
    let mut units: Vec<Unit> = Vec::new();
    for _ in 0..1 + random.below(32) {
        let (zone, drive, first) = (random.below(zones), random.below(2) as u8, sheet.turnouts.len() as u8);
        let pair = random.below(2) == 0;
        sheet = if pair { sheet.crossover(zone as u8, drive) } else { sheet.turnout(zone as u8, drive) };
        units.push((zone, if pair { vec![first, first + 1] } else { vec![first] }));
    }
    with_random_routes(random, sheet, &units)
}

/// Of version 2: groups of 2 to 8 turnouts, numbered at random, and single turnouts, in random zones and mixed.
pub fn random_groups(random: &mut Random) -> Sheet {
    let zones = 1 + random.below(8);
    let mut sheet = Sheet::of_version_2(zones as u8);
    let mut free: Vec<u8> = (0..32).collect();
    for _ in 0..2 + random.below(12) {
        let (zone, drive, size) = (random.below(zones), random.below(2), 1 + random.below(8) as usize);
        let number = if size == 1 { ALONE } else { free.swap_remove(random.below(free.len() as u64) as usize) };
        if sheet.turnouts.len() + size <= 64 {
            sheet = sheet.carriers(zone as u8, drive as u8, &vec![number; size]);
        }
    }
    for n in 1..sheet.turnouts.len() {
        sheet.turnouts.swap(n, random.below(n as u64 + 1) as usize);
    }
    let units = units(&sheet);
    with_random_routes(random, sheet, &units)
}

/// The groups of a sheet of version 2, and its single turnouts.
fn units(sheet: &Sheet) -> Vec<Unit> {
    let mut units: Vec<(u8, Unit)> = Vec::new();
    for (n, [zone, number, _]) in (0..).zip(&sheet.turnouts) {
        match units.iter_mut().find(|(other, _)| other == number && *number != ALONE) {
            Some((_, (_, turnouts))) => turnouts.push(n),
            None => units.push((*number, (u64::from(*zone), vec![n]))),
        }
    }
    units.into_iter().map(|(_, unit)| unit).collect()
}

/// Routes that put each of the units in one of their sets or in none.
fn with_random_routes(random: &mut Random, mut sheet: Sheet, units: &[Unit]) -> Sheet {
    for _ in 0..random.below(80) {
        let zone = random.below(u64::from(sheet.zones));
        let with_route = with_random_route(random, sheet.clone(), zone, units);
        if sheet::read(&with_route.bytes()).is_ok() {
            sheet = with_route;
        }
    }
    sheet
}

fn with_random_route(random: &mut Random, sheet: Sheet, zone: u64, units: &[Unit]) -> Sheet {
    let (mut sets, mut reverse) = ([const { Vec::new() }; 4], Vec::new());
    for (_, turnouts) in units.iter().filter(|(of, _)| *of == zone) {
        let part = random.below(4) as usize;
        sets[part].extend(turnouts);
        if part < 3 && random.below(2) == 0 {
            reverse.extend(turnouts);
        }
    }
    let [run_over, flank, exit_zone, _] = sets;
    sheet.route(zone as u8, &run_over, &flank, &exit_zone, &reverse)
}
