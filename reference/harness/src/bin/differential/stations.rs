//! Random sheets of both versions: good ones, small and large, and damaged ones. Those with any numbers of groups and
//! any partners stand in `group_sheets`.

use crate::group_sheets::damage_group;
use crate::rng::Rng;
use reference::drafts::Sheet;
use reference::group::{Groups, ALONE};
use reference::set::{only, Set};
use reference::sheet;

/// Sizes of the groups of version 2, as far as a zone has turnouts for them.
const SIZES: [(u32, usize); 7] = [(5, 2), (3, 3), (2, 4), (1, 5), (1, 6), (1, 7), (4, 8)];

/// A good sheet.
pub fn sheet(rng: &mut Rng) -> Sheet {
    let (turnouts, routes, zones) = match rng.within(0..=99) {
        0..=46 => (rng.within(1..=6), rng.within(1..=6), rng.within(1..=2)),
        47..=75 => (rng.within(4..=20), rng.within(2..=16), rng.within(1..=4)),
        76..=84 => (rng.within(21..=64), rng.within(0..=64), rng.within(1..=8)),
        85..=91 => (64, 64, 8),
        // Few zones and no movement in the way: work on turnout 63 is often asked, and often restored in part.
        _ => (64, 0, rng.within(1..=2)),
    };
    sized(rng, turnouts, routes, zones)
}

/// A good sheet with these counts, of either version.
pub fn sized(rng: &mut Rng, turnouts: u32, routes: u32, zones: u32) -> Sheet {
    let mut sheet = Sheet { version: rng.weighted(&[(2, 1), (3, 2)]), ..Sheet::new(zones as u8) };
    for _ in 0..turnouts {
        let zone = rng.within(0..=zones - 1) as u8;
        sheet.turnouts.push([zone, ALONE, rng.within(0..=1) as u8]);
    }
    match sheet.version {
        1 => pair(rng, &mut sheet.turnouts),
        _ => tie(rng, &mut sheet.turnouts),
    }
    let groups = sheet::read(&sheet.bytes()).expect("good turnouts").groups();
    let percent = rng.pick(&[15, 35, 70]);
    for _ in 0..routes {
        let route = route(rng, &sheet, &groups, percent);
        sheet.routes.push(route);
    }
    sheet
}

/// The turnouts after this one that are alone, of its zone.
fn alone_after(turnouts: &[[u8; 3]], first: usize) -> Vec<usize> {
    let alone = |n: &usize| turnouts[*n][1] == ALONE && turnouts[*n][0] == turnouts[first][0];
    (first + 1..turnouts.len()).filter(alone).collect()
}

/// Version 1: makes crossovers of some turnouts of one zone.
fn pair(rng: &mut Rng, turnouts: &mut [[u8; 3]]) {
    for first in 0..turnouts.len() {
        let others = alone_after(turnouts, first);
        if turnouts[first][1] == ALONE && !others.is_empty() && rng.chance(50) {
            let second = rng.pick(&others);
            turnouts[first][1] = second as u8;
            turnouts[second] = [turnouts[first][0], first as u8, turnouts[first][2]];
        }
    }
}

/// Version 2: ties some turnouts of one zone as groups of 2 to 8, with any numbers.
fn tie(rng: &mut Rng, turnouts: &mut [[u8; 3]]) {
    let mut numbers: Vec<u8> = (0..32).collect();
    for first in 0..turnouts.len() {
        let mut others = alone_after(turnouts, first);
        if turnouts[first][1] == ALONE && !others.is_empty() && rng.chance(50) {
            // At most 64 turnouts, two at least in a group: there is a number left.
            turnouts[first][1] = numbers.swap_remove(rng.index(numbers.len()));
            for _ in 1..rng.weighted(&SIZES).min(others.len() + 1) {
                let other = others.swap_remove(rng.index(others.len()));
                turnouts[other] = turnouts[first];
            }
        }
    }
}

/// A good route: some turnouts of a zone in run over, flank and exit zone, each named by chance.
fn route(rng: &mut Rng, sheet: &Sheet, groups: &Groups, percent: u32) -> (u8, [Set; 4]) {
    let first = rng.index(sheet.turnouts.len()) as u8;
    let zone = sheet.turnouts[usize::from(first)][0];
    let mut sets = [only(first), 0, 0, 0];
    for (n, turnout) in (0u8..).zip(&sheet.turnouts) {
        if n != first && turnout[0] == zone && rng.chance(percent) {
            sets[rng.weighted(&[(2, 0), (2, 1), (1, 2)])] |= only(n);
        }
    }
    // A flank turnout's whole group is flank; where one of it is named otherwise, none is flank.
    for (_, group) in groups.split_by(sets[1]) {
        let otherwise = group & (sets[0] | sets[2]) != 0;
        sets[1] = if otherwise { sets[1] & !group } else { sets[1] | group };
    }
    let named = sets[0] | sets[1] | sets[2];
    sets[3] = rng.part(named, 40);
    // The two of a group have the position of the lower one.
    for (_, ends) in groups.iter().filter(|&(_, group)| group.count_ones() == 2 && group & !named == 0) {
        let lower = ends & ends.wrapping_neg();
        sets[3] = if sets[3] & lower != 0 { sets[3] | ends } else { sets[3] & !ends };
    }
    (zone, sets)
}

/// A good sheet's bytes with one thing or a few things changed; by chance still good.
pub fn damaged(rng: &mut Rng, sheet: &Sheet) -> Vec<u8> {
    let mut bytes = sheet.bytes();
    for _ in 0..rng.weighted(&[(5, 1), (2, 2), (1, 3)]) {
        damage(rng, sheet, &mut bytes);
    }
    bytes
}

fn damage(rng: &mut Rng, sheet: &Sheet, bytes: &mut Vec<u8>) {
    let (turnouts, routes) = (sheet.turnouts.len(), sheet.routes.len());
    let turnout_at = 8 + 3 * rng.index(turnouts);
    let route = rng.index(routes.max(1));
    let route_at = 8 + 3 * turnouts + 33 * route;
    match rng.within(0..=18) {
        0 => bytes.truncate(rng.index(bytes.len() + 1)),
        1 => bytes.truncate(rng.index(9)),
        2 => {
            let more = rng.within(1..=40) as usize;
            bytes.extend(rng.bytes(more));
        }
        3 => {
            // One bit of the mark or the version.
            if let Some(byte) = bytes.get_mut(rng.index(5)) {
                *byte ^= 1 << rng.index(8);
            }
        }
        4 => put(bytes, 5 + rng.index(3), rng.pick(&[0, 1, 8, 9, 64, 65, 255])),
        5 => put(bytes, turnout_at, rng.within(0..=8) as u8),
        6 => put(bytes, turnout_at + 1, rng.within(0..=turnouts as u32) as u8),
        7 => put(bytes, turnout_at + 1, rng.pick(&[31, 32, 64, 254, 255])),
        8 => put(bytes, turnout_at + 2, rng.within(0..=2) as u8),
        9 if routes > 0 => put(bytes, route_at, rng.within(0..=8) as u8),
        10 | 11 if routes > 0 => {
            // One turnout flipped in one of the four sets.
            let (set, n) = (rng.index(4), rng.index(turnouts.min(63) + 1));
            flip(bytes, route_at, set, n);
        }
        12 if routes > 0 => {
            // A turnout moved from one set to another.
            let (from, to) = (rng.index(4), rng.index(4));
            for byte in 0..8 {
                let moved = bytes.get(route_at + 1 + 8 * from + byte).copied().unwrap_or(0);
                put(bytes, route_at + 1 + 8 * from + byte, 0);
                put(bytes, route_at + 1 + 8 * to + byte, moved);
            }
        }
        13..=15 if sheet.version == 2 => damage_group(rng, sheet, bytes),
        16 | 17 if routes > 0 => {
            // A flank turnout taken out, or a named one turned.
            let [run_over, flank, exit_zone, _] = sheet.routes[route].1;
            let (set, turnouts) = if flank != 0 { (1, flank) } else { (3, run_over | exit_zone) };
            flip(bytes, route_at, set, usize::from(rng.member(turnouts)));
        }
        _ => {
            let at = rng.index(bytes.len().max(1));
            put(bytes, at, rng.byte());
        }
    }
}

/// One turnout flipped in a set of the route that starts there.
fn flip(bytes: &mut [u8], route_at: usize, set: usize, turnout: usize) {
    if let Some(byte) = bytes.get_mut(route_at + 1 + 8 * set + (7 - turnout / 8)) {
        *byte ^= 1 << (turnout % 8);
    }
}

/// Replaces the byte, if it is there.
pub fn put(bytes: &mut [u8], at: usize, value: u8) {
    if let Some(byte) = bytes.get_mut(at) {
        *byte = value;
    }
}
