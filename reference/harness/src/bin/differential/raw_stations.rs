//! Random stations as they stand, for the writer and for sets that may split a group: good ones, ones with a few
//! numbers changed, and any numbers.

use crate::rng::Rng;
use crate::stations;
use harness::trial::{self, VALUES};
use reference::group::ALONE;
use reference::set::{only, Set};
use reference::sheet;
use reference::station::Route;
use reference::writer::{RawStation, RawTurnout, RECORDS};

/// Counts on both sides of the limits.
const COUNTS: [u8; 10] = [0, 1, 2, 8, 9, 63, 64, 65, 128, 255];

/// A station that the generator of sheets gives.
pub fn good(rng: &mut Rng) -> RawStation {
    let bytes = stations::sheet(rng).bytes();
    RawStation::from(&sheet::read(&bytes).expect("the generator makes good sheets"))
}

/// A good station changed in a way that leaves it good.
pub fn still_good(rng: &mut Rng, good: &RawStation) -> RawStation {
    let mut station = good.clone();
    let routes = usize::from(station.routes);
    match rng.within(0..=6) {
        0 => station.zones = rng.within(u32::from(station.zones)..=8) as u8,
        1 if routes > 0 => station.route_records.swap(rng.index(routes), rng.index(routes)),
        2 if routes > 0 => {
            station.routes -= 1;
            station.route_records[routes - 1] = Route::default();
        }
        3 if (1..RECORDS).contains(&routes) => {
            station.routes += 1;
            station.route_records[routes] = station.route_records[rng.index(routes)];
        }
        4 => {
            let turnout = &mut station.turnout_records[rng.index(usize::from(good.turnouts))];
            if turnout.group == ALONE {
                turnout.drive ^= 1;
            }
        }
        5 => renumber(rng, &mut station),
        _ => {}
    }
    station
}

/// Two numbers of groups exchanged, in use or not.
fn renumber(rng: &mut Rng, station: &mut RawStation) {
    let [one, other] = [(); 2].map(|()| rng.within(0..=31) as u8);
    for turnout in &mut station.turnout_records[..usize::from(station.turnouts)] {
        turnout.group = match turnout.group {
            number if number == one => other,
            number if number == other => one,
            number => number,
        };
    }
}

/// A good station with one number or a few numbers changed; by chance still good.
pub fn damaged(rng: &mut Rng, good: &RawStation) -> RawStation {
    let mut station = good.clone();
    for _ in 0..rng.weighted(&[(6, 1), (2, 2), (1, 3)]) {
        match rng.within(0..=9) {
            0..=2 => damage_turnout(rng, &mut station),
            3..=5 => damage_route(rng, &mut station),
            6..=7 => past_counts(rng, &mut station),
            _ => damage_count(rng, &mut station),
        }
    }
    station
}

/// One of the records below a count, if it has any.
fn below(rng: &mut Rng, count: u8) -> usize {
    rng.index(usize::from(count).clamp(1, RECORDS))
}

fn damage_turnout(rng: &mut Rng, station: &mut RawStation) {
    let n = below(rng, station.turnouts);
    let record = &mut station.turnout_records[n];
    match rng.within(0..=6) {
        0 => record.zone = rng.within(0..=8) as u8,
        1 => record.group = rng.within(0..=31) as u8,
        2 => record.group = rng.pick(&[31, 32, 40, 64, 254, ALONE]),
        3 => record.drive = rng.within(0..=2) as u8,
        4 => {
            // Its record put over a few others: often a group of more than 8, or another left with one.
            for _ in 0..rng.within(1..=8) {
                let other = below(rng, station.turnouts);
                station.turnout_records[other] = station.turnout_records[n];
            }
        }
        5 => *rng.place([&mut record.zone, &mut record.group, &mut record.drive]) = rng.byte(),
        _ => {
            // Another turnout's record.
            let other = below(rng, station.turnouts);
            station.turnout_records[n] = station.turnout_records[other];
        }
    }
}

fn sets(route: &mut Route) -> [&mut Set; 4] {
    [&mut route.run_over, &mut route.flank, &mut route.exit_zone, &mut route.reverse]
}

fn damage_route(rng: &mut Rng, station: &mut RawStation) {
    let route = &mut station.route_records[below(rng, station.routes)];
    match rng.within(0..=6) {
        0 => route.zone = rng.within(0..=8) as u8,
        1..=3 => {
            // One turnout flipped in one of the four sets.
            let n = rng.index(usize::from(station.turnouts).min(63) + 1) as u8;
            *rng.place(sets(route)) ^= only(n);
        }
        4 => {
            // The turnouts of one set moved to another.
            let moved = std::mem::take(rng.place(sets(route)));
            *rng.place(sets(route)) = moved;
        }
        5 => *rng.place(sets(route)) = 0,
        _ => *rng.place(sets(route)) = rng.next(),
    }
}

/// A number past P or R, where there is room for one.
fn past_counts(rng: &mut Rng, station: &mut RawStation) {
    let number = rng.pick(&[1, 2, 128, 255]);
    if rng.chance(50) {
        if let Some(record) = one_past(rng, &mut station.turnout_records, station.turnouts) {
            *rng.place([&mut record.zone, &mut record.group, &mut record.drive]) = number;
        }
    } else if let Some(record) = one_past(rng, &mut station.route_records, station.routes) {
        if rng.chance(20) {
            record.zone = number;
        } else {
            *rng.place(sets(record)) = only(rng.index(64) as u8);
        }
    }
}

/// The first record past a count, the last, or one between.
fn one_past<'r, T>(rng: &mut Rng, records: &'r mut [T], count: u8) -> Option<&'r mut T> {
    let past = records.get_mut(usize::from(count)..).filter(|past| !past.is_empty())?;
    let between = rng.index(past.len());
    let place = rng.pick(&[0, between, past.len() - 1]);
    past.get_mut(place)
}

fn damage_count(rng: &mut Rng, station: &mut RawStation) {
    let near = rng.pick(&[1, 255]);
    let count = rng.place([&mut station.turnouts, &mut station.routes, &mut station.zones]);
    *count = if rng.chance(50) { rng.pick(&COUNTS) } else { count.wrapping_add(near) };
}

/// Any numbers, good only by chance: none but 0, all at random, or a few small ones.
pub fn odd(rng: &mut Rng) -> RawStation {
    match rng.within(0..=9) {
        0 => RawStation { zones: rng.within(0..=1) as u8, ..RawStation::empty() },
        1..=3 => random(rng),
        _ => tiny(rng),
    }
}

/// Random bytes throughout; half of them with counts within the limits.
fn random(rng: &mut Rng) -> RawStation {
    let mut values = [0; VALUES];
    values.fill_with(|| rng.byte());
    let station = trial::station(&values);
    if rng.chance(50) {
        return station;
    }
    let (turnouts, routes, zones) = (rng.within(1..=64), rng.within(0..=64), rng.within(1..=8));
    RawStation { turnouts: turnouts as u8, routes: routes as u8, zones: zones as u8, ..station }
}

/// At most four turnouts and two routes, of small numbers: often good.
fn tiny(rng: &mut Rng) -> RawStation {
    let (turnouts, routes, zones) = (rng.within(1..=4), rng.within(0..=2), rng.within(1..=2));
    let mut station = RawStation { turnouts: turnouts as u8, routes: routes as u8, ..RawStation::empty() };
    station.zones = zones as u8;
    for record in &mut station.turnout_records[..turnouts as usize] {
        let group = rng.weighted(&[(4, ALONE), (4, 0), (1, 1), (1, 31), (1, 32)]);
        let (zone, drive) = (rng.weighted(&[(8, 0), (1, 1)]), rng.weighted(&[(8, 0), (1, 1)]));
        *record = RawTurnout { zone, group, drive };
    }
    for record in &mut station.route_records[..routes as usize] {
        let all = only(turnouts as u8) - 1;
        *record = Route { zone: rng.weighted(&[(8, 0), (1, 1)]), run_over: rng.part(all, 30), ..Route::default() };
        for set in [&mut record.flank, &mut record.exit_zone, &mut record.reverse] {
            *set = rng.part(all, 20);
        }
    }
    station
}
