//! Sheets for the cabin panel: of counts on both sides of its limits, good and damaged.

use crate::rng::Rng;
use crate::stations::{self, put};
use reference::builders::plain_station;
use reference::drafts::Sheet;

/// Counts on both sides of the panel's limits and of the sheet's.
const TURNOUTS: [u8; 10] = [0, 1, 15, 16, 17, 18, 63, 64, 65, 255];
const ROUTES: [u8; 8] = [0, 7, 8, 9, 10, 64, 65, 255];
const ZONES: [u8; 4] = [0, 1, 8, 9];

/// All counts on both sides of the limits, in both versions; each with its length and others, with another mark or
/// version, and with a bad last turnout or route.
pub fn all_counts() -> impl Iterator<Item = Vec<u8>> {
    let routes = |turnouts: u8| ROUTES.map(|routes| (turnouts, routes));
    let counts = TURNOUTS.into_iter().flat_map(routes);
    let sheets = counts.flat_map(|(turnouts, routes)| ZONES.map(|zones| plain(turnouts, routes, zones)));
    sheets.flat_map(|sheet| [1, 2].map(|version| Sheet { version, ..sheet.clone() })).flat_map(variants)
}

/// Good if its counts are, in both versions.
fn plain(turnouts: u8, routes: u8, zones: u8) -> Sheet {
    Sheet { zones, ..plain_station(usize::from(turnouts), usize::from(routes)) }
}

fn variants(sheet: Sheet) -> Vec<Vec<u8>> {
    let bytes = sheet.bytes();
    let routes_at = 8 + 3 * sheet.turnouts.len();
    let with = |at: usize, value: u8| {
        let mut changed = bytes.clone();
        put(&mut changed, at, value);
        changed
    };
    let mut variants = vec![with(2, b't'), with(4, 3), with(3, 1)];
    if !sheet.turnouts.is_empty() {
        variants.push(with(routes_at - 1, 2)); // its drive
    }
    if !sheet.routes.is_empty() {
        variants.push(with(bytes.len() - 1, 2)); // its reverse names turnout 1
    }
    variants.extend([7, 8, bytes.len() - 1].map(|length| bytes[..length].to_vec()));
    variants.push([&bytes[..], &[0]].concat());
    variants.push(bytes);
    variants
}

/// A good sheet of counts near the panel's limits, now and then of the most.
pub fn good(rng: &mut Rng) -> Sheet {
    let turnouts = rng.weighted(&[(2, 1), (2, 2), (4, 15), (8, 16), (4, 17), (2, 18), (1, 63), (1, 64)]);
    let routes = rng.weighted(&[(2, 0), (4, 7), (8, 8), (4, 9), (2, 10), (1, 64)]);
    let zones = rng.pick(&[1, 1, 2, 3, 8]);
    stations::sized(rng, turnouts, routes, zones)
}

/// Such a sheet's bytes with some things changed; by chance still good.
pub fn damaged(rng: &mut Rng, sheet: &Sheet) -> Vec<u8> {
    let mut bytes = if rng.chance(30) { stations::damaged(rng, sheet) } else { sheet.bytes() };
    match rng.within(0..=5) {
        0 => other_counts(rng, &mut bytes),
        1 | 2 => damage_turnout(rng, sheet, &mut bytes),
        3 | 4 if !sheet.routes.is_empty() => damage_route(rng, sheet, &mut bytes),
        _ => other_length(rng, &mut bytes),
    }
    bytes
}

/// Other counts, half of the time with the length that they ask for.
fn other_counts(rng: &mut Rng, bytes: &mut Vec<u8>) {
    match rng.within(0..=4) {
        0 | 1 => put(bytes, 5, rng.pick(&TURNOUTS)),
        2 | 3 => put(bytes, 6, rng.pick(&ROUTES)),
        _ => put(bytes, 7, rng.pick(&ZONES)),
    }
    if let ([_, _, _, _, _, turnouts, routes, _, ..], true) = (&bytes[..], rng.chance(50)) {
        let length = 8 + 3 * usize::from(*turnouts) + 33 * usize::from(*routes);
        let more = rng.bytes(length.saturating_sub(bytes.len()));
        bytes.truncate(length);
        bytes.extend(more);
    }
}

fn other_length(rng: &mut Rng, bytes: &mut Vec<u8>) {
    match rng.within(0..=3) {
        0 => bytes.truncate(rng.index(9)),
        1 => bytes.truncate(bytes.len().saturating_sub(1)),
        2 => bytes.truncate(rng.index(bytes.len() + 1)),
        _ => bytes.push(rng.byte()),
    }
}

/// The first record, the last, or the one that is the panel's last.
fn place(rng: &mut Rng, count: usize, limit: usize) -> usize {
    rng.pick(&[0, count.min(limit) - 1, count - 1])
}

fn damage_turnout(rng: &mut Rng, sheet: &Sheet, bytes: &mut [u8]) {
    let n = place(rng, sheet.turnouts.len(), 16);
    let turnouts = sheet.turnouts.len() as u8;
    let [field, value] =
        rng.pick(&[[0, sheet.zones], [0, 255], [1, n as u8], [1, 16], [1, turnouts], [1, 32], [1, 254], [2, 2]]);
    put(bytes, 8 + 3 * n + usize::from(field), value);
}

/// Another zone; or in one of the sets the last turnout of 64, turnout 16, which no panel has, or none below 8.
fn damage_route(rng: &mut Rng, sheet: &Sheet, bytes: &mut [u8]) {
    let at = 8 + 3 * sheet.turnouts.len() + 33 * place(rng, sheet.routes.len(), 8);
    let set = 1 + 8 * rng.index(4);
    let (field, value) = rng.pick(&[(0, sheet.zones), (set, 128), (set + 5, 1), (set + 7, 0)]);
    put(bytes, at + field, value);
}
