//! Cases of the cabin panel's reading: 16 turnouts and 8 routes at most, 9 after the counts and before the length.
//! PANEL-1, PANEL-2, PANEL-3.

use crate::cases::Cases;
use crate::sheets::two_zones;
use reference::builders::*;
use reference::drafts::Sheet;

/// The sheet with the bytes from `at` replaced.
fn with(sheet: &Sheet, at: usize, bytes: &[u8]) -> Vec<u8> {
    let mut damaged = sheet.bytes();
    damaged[at..at + bytes.len()].copy_from_slice(bytes);
    damaged
}

/// Where turnout record `n` starts.
fn turnout_at(n: usize) -> usize {
    8 + 3 * n
}

/// Where route record `n` starts, after so many turnouts.
fn route_at(turnouts: usize, n: usize) -> usize {
    turnout_at(turnouts) + 33 * n
}

pub fn add(cases: &mut Cases) {
    accepted(cases);
    beyond_the_limits(cases);
    before_the_length(cases);
    after_the_counts(cases);
    refused_within_the_limits(cases);
}

/// The desk's station.
fn accepted(c: &mut Cases) {
    c.panel(0, 0, &station_k().bytes()); // station K
    c.panel(0, 0, &two_zones().bytes()); // two zones, every set of a route in use
    c.panel(0, 0, &plain_station(1, 0).bytes()); // 1 and 0, the smallest
    c.panel(0, 0, &largest_panel_station().bytes()); // 16 and 8, the largest
    c.panel(0, 0, &plain_station(16, 0).bytes()); // 16 and 0
    c.panel(0, 0, &plain_station(1, 8).bytes()); // 1 and 8
    c.panel(0, 0, &with(&plain_station(16, 0), 7, &[8])); // zones are not limited further
    let mut ends = plain_station(16, 0);
    ends.turnouts[0][1] = 15;
    ends.turnouts[15][1] = 0;
    c.panel(0, 0, &ends.bytes()); // 0 and 15 a crossover
}

/// Good sheets of the desk.
fn beyond_the_limits(c: &mut Cases) {
    c.panel(9, 0, &plain_station(17, 8).bytes()); // 17 and 8
    c.panel(9, 0, &plain_station(16, 9).bytes()); // 16 and 9
    c.panel(9, 0, &plain_station(17, 9).bytes()); // 17 and 9
    c.panel(9, 0, &plain_station(17, 0).bytes()); // 17 and 0
    c.panel(9, 0, &plain_station(1, 9).bytes()); // 1 and 9
    c.panel(9, 0, &largest_station().bytes()); // 64 and 64
}

/// PANEL-2: "before the length"; so before the records too.
fn before_the_length(c: &mut Cases) {
    let seventeen = plain_station(17, 0);
    c.panel(9, 0, &seventeen.bytes()[..58]); // 17, a byte short
    c.panel(9, 0, &[seventeen.bytes(), vec![0]].concat()); // 17, a byte more
    c.panel(9, 0, &seventeen.bytes()[..8]); // 17, no record
    c.panel(9, 0, &with(&plain_station(1, 0), 6, &[9])); // 9 routes, none of them there
    c.panel(9, 0, &with(&plain_station(1, 0), 5, &[64, 64])); // 64 and 64, one turnout there
    c.panel(9, 0, &with(&seventeen, turnout_at(16), &[1])); // 17, turnout 16 bad
    c.panel(9, 0, &with(&plain_station(1, 9), route_at(1, 8), &[1])); // 9 routes, route 8 bad
}

/// PANEL-2: "after the counts are found in range".
fn after_the_counts(c: &mut Cases) {
    let seventeen = plain_station(17, 0);
    c.panel(1, 0, &seventeen.bytes()[..7]); // 7 bytes
    c.panel(2, 0, &with(&seventeen, 2, b"t")); // mark
    c.panel(9, 0, &with(&seventeen, 3, &[0, 2])); // version 2 is read since M-107
    c.panel(4, 0, &with(&seventeen, 7, &[0])); // no zone
    c.panel(4, 0, &with(&seventeen, 7, &[9])); // nine zones
    c.panel(4, 0, &with(&seventeen, 5, &[65])); // 65 turnouts
    c.panel(4, 0, &with(&seventeen, 6, &[65])); // 65 routes
    c.panel(4, 0, &with(&seventeen, 5, &[0, 9])); // no turnout, 9 routes
}

/// As by the desk.
fn refused_within_the_limits(c: &mut Cases) {
    let k = station_k();
    c.panel(1, 0, &[]); // no byte
    c.panel(1, 0, &k.bytes()[..49]); // 49 bytes
    c.panel(1, 0, &[k.bytes(), vec![0]].concat()); // 51 bytes
    c.panel(1, 0, &with(&k, 5, &[16, 8])); // 16 and 8 are within the limits, the length is wrong
    c.panel(5, 15, &with(&plain_station(16, 0), turnout_at(15), &[1])); // 16, turnout 15 bad
    c.panel(5, 15, &with(&plain_station(16, 0), turnout_at(15), &[0, 16])); // turnout 15 with partner 16
    c.panel(6, 7, &with(&plain_station(1, 8), route_at(1, 7), &[1])); // 8 routes, route 7 bad
    c.panel(6, 0, &plain_station(16, 0).route(0, &[16], &[], &[], &[]).bytes());
    // turnout 16 run over
}
