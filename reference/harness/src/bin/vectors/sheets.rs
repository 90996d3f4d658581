//! Cases of the station sheet: each rule damaged alone, at record indices above 0, and two faults in order.

use crate::cases::Cases;
use reference::builders::*;
use reference::drafts::Sheet;
use reference::sheet::{ELECTRIC, HAND};

/// Two zones: crossovers 0-1 and 2-3 (electric) and 4 (hand) in zone 0, 5 and 6 in zone 1;
/// route 0 is good, and the tests add a second.
pub fn two_zones() -> Sheet {
    Sheet::new(2)
        .crossover(0, ELECTRIC)
        .crossover(0, ELECTRIC)
        .turnout(0, HAND)
        .turnout(1, ELECTRIC)
        .turnout(1, HAND)
        .route(0, &[0, 1], &[2, 3], &[4], &[0, 1])
}

/// The sheet with the bytes from `at` replaced.
fn with(sheet: &Sheet, at: usize, bytes: &[u8]) -> Vec<u8> {
    let mut damaged = sheet.bytes();
    damaged[at..at + bytes.len()].copy_from_slice(bytes);
    damaged
}

/// Turnout record `n` replaced.
fn turnout(n: usize, record: [u8; 3]) -> Vec<u8> {
    with(&two_zones(), 8 + 3 * n, &record)
}

/// A second route put after the good one.
fn second(zone: u8, run_over: &[u8], flank: &[u8], exit_zone: &[u8], reverse: &[u8]) -> Vec<u8> {
    two_zones().route(zone, run_over, flank, exit_zone, reverse).bytes()
}

pub fn add(cases: &mut Cases) {
    let c = cases;
    let k = station_k();
    let two = two_zones();

    // Good sheets.
    c.sheet(0, 0, &k.bytes()); // station K
    c.sheet(0, 0, &two.bytes()); // two zones
    c.sheet(0, 0, &Sheet::new(1).turnout(0, ELECTRIC).bytes()); // the smallest: one turnout, no route
    c.sheet(0, 0, &Sheet::new(8).turnout(7, HAND).bytes()); // eight zones, seven of them without a turnout

    // Length, 1.
    c.sheet(1, 0, &[]); // no byte
    c.sheet(1, 0, &k.bytes()[..7]); // 7 bytes
    c.sheet(1, 0, b"XXXXXXX"); // under 8 comes before the mark
    c.sheet(1, 0, &k.bytes()[..49]); // 49 bytes
    c.sheet(1, 0, &[k.bytes(), vec![0]].concat()); // 51 bytes
    c.sheet(1, 0, &two.bytes()[..8 + 3 * 7]); // routes missing

    // Mark, 2.
    c.sheet(2, 0, &with(&k, 0, b"s")); // first letter
    c.sheet(2, 0, &with(&k, 1, b"Q")); // second letter
    c.sheet(2, 0, &with(&k, 2, b"t")); // third letter
    c.sheet(2, 0, &[0; 8]); // eight zeros

    // Version, 3.
    c.sheet(3, 0, &with(&k, 3, &[0, 0])); // version 0
    c.sheet(5, 0, &with(&k, 3, &[0, 2])); // version 2 is read since M-107; K's partners are no groups
    c.sheet(3, 0, &with(&k, 3, &[1, 1])); // version 257

    // Counts, 4.
    c.sheet(4, 0, &with(&k, 5, &[0])); // no turnout
    c.sheet(4, 0, &with(&k, 5, &[65])); // 65 turnouts
    c.sheet(4, 0, &with(&k, 6, &[65])); // 65 routes
    c.sheet(4, 0, &with(&k, 7, &[0])); // no zone
    c.sheet(4, 0, &with(&k, 7, &[9])); // nine zones
    c.sheet(1, 0, &with(&k, 5, &[64])); // 64 turnouts are no bad count, but the length is
    c.sheet(1, 0, &with(&k, 6, &[64])); // 64 routes likewise
    c.sheet(0, 0, &with(&k, 7, &[8])); // eight zones in K

    // Turnouts, 5.
    c.sheet(5, 2, &with(&k, 14, &[1])); // K: zone not below Z
    c.sheet(5, 4, &turnout(4, [2, 255, 1])); // zone equal to Z
    c.sheet(5, 4, &turnout(4, [0, 255, 2])); // drive 2
    c.sheet(5, 4, &turnout(4, [0, 7, 1])); // partner equal to P
    c.sheet(5, 4, &turnout(4, [0, 254, 1])); // partner 254
    c.sheet(5, 4, &turnout(4, [0, 64, 1])); // partner 64
    c.sheet(5, 4, &turnout(4, [0, 4, 1])); // partner itself
    c.sheet(5, 4, &turnout(4, [0, 0, 1])); // partner in another crossover
    c.sheet(5, 0, &turnout(1, [0, 255, 0])); // 0 names 1, 1 names none: index 0
    c.sheet(5, 1, &turnout(0, [0, 255, 0])); // 0 names none, 1 names 0: index 1
    c.sheet(5, 2, &turnout(3, [0, 255, 0])); // 2 names 3, 3 names none: index 2
    c.sheet(5, 2, &turnout(3, [1, 2, 0])); // ends in two zones: index 2
    c.sheet(5, 2, &turnout(3, [0, 2, 1])); // ends of two drives: index 2
    c.sheet(5, 2, &turnout(3, [0, 1, 0])); // 3 names 1
    c.sheet(5, 2, &turnout(2, [0, 0, 0])); // 2 names 0
    c.sheet(5, 0, &turnout(0, [0, 2, 0])); // 0 names 2, which names 3
    c.sheet(5, 5, &with(&two, 8 + 15, &[1, 6, 0, 1, 5, 1])); // 5 and 6 paired over two drives
    c.sheet(0, 0, &with(&two, 8 + 15, &[1, 6, 0, 1, 5, 0])); // 5 and 6 paired well

    // Routes, 6.
    c.sheet(0, 0, &second(1, &[5], &[6], &[], &[6])); // a good second route
    c.sheet(0, 0, &second(0, &[0], &[], &[2], &[])); // run over and exit zone name one end of a crossover
    c.sheet(0, 0, &second(0, &[0], &[], &[1], &[0, 1])); // two ends, run over and exit zone, both reverse
    c.sheet(6, 1, &second(0, &[0, 2], &[2, 3], &[], &[])); // run over meets flank
    c.sheet(6, 1, &second(0, &[0, 4], &[], &[4], &[])); // run over meets exit zone
    c.sheet(6, 1, &second(0, &[0], &[4], &[4], &[])); // flank meets exit zone
    c.sheet(6, 1, &second(0, &[0, 7], &[], &[], &[])); // run over with turnout P
    c.sheet(6, 1, &second(0, &[0], &[63], &[], &[])); // flank with turnout 63
    c.sheet(6, 1, &second(0, &[0], &[], &[7], &[])); // exit zone with turnout P
    c.sheet(6, 1, &second(0, &[0, 5], &[], &[], &[])); // run over in another zone
    c.sheet(6, 1, &second(0, &[0], &[6], &[], &[])); // flank in another zone
    c.sheet(6, 1, &second(0, &[0], &[], &[5], &[])); // exit zone in another zone
    c.sheet(6, 1, &second(1, &[0], &[], &[], &[])); // route of a zone without these turnouts
    c.sheet(6, 1, &second(2, &[0], &[], &[], &[])); // zone equal to Z
    c.sheet(6, 1, &second(2, &[], &[], &[], &[])); // zone equal to Z and nothing named
    c.sheet(6, 1, &second(0, &[], &[], &[], &[])); // nothing named
    c.sheet(6, 1, &second(0, &[], &[4], &[0], &[])); // run over empty
    c.sheet(6, 1, &second(0, &[0], &[4], &[], &[2])); // reverse outside the union
    c.sheet(6, 1, &second(0, &[0], &[], &[], &[63])); // reverse past P
    c.sheet(6, 1, &second(0, &[4], &[0], &[], &[])); // flank without its partner
    c.sheet(6, 1, &second(0, &[0], &[1], &[], &[])); // flank's partner in run over
    c.sheet(6, 1, &second(0, &[4], &[3], &[2], &[])); // flank's partner in exit zone
    c.sheet(6, 1, &second(0, &[0, 1], &[], &[], &[0])); // two ends in run over, two positions
    c.sheet(6, 1, &second(0, &[4], &[2, 3], &[], &[3])); // two ends in flank, two positions
    c.sheet(6, 1, &second(0, &[4], &[], &[0, 1], &[1])); // two ends in exit zone, two positions
    c.sheet(6, 1, &second(0, &[0], &[], &[1], &[1])); // ends in run over and exit zone, two positions
    c.sheet(0, 0, &second(0, &[0], &[], &[], &[0])); // one end named, reverse

    // Two faults: the order, and the first record.
    c.sheet(2, 0, &with(&k, 2, &[0, 0, 9])); // mark before version
    c.sheet(4, 0, &with(&k, 3, &[0, 2, 0])); // version 2 is read since M-107: counts
    c.sheet(2, 0, &with(&k, 2, &[0, 0, 1, 0, 1])); // mark before counts
    c.sheet(4, 0, &with(&k, 5, &[0, 1, 1])[..20]); // counts before length
    c.sheet(1, 0, &turnout(4, [9, 9, 9])[..60]); // length before turnouts
    c.sheet(5, 6, &with(&Sheet { routes: vec![(9, [0; 4])], ..two_zones() }, 8 + 18, &[2])); // turnouts before routes
    c.sheet(5, 4, &with(&two, 8 + 12, &[9, 255, 0, 9, 255, 0])); // the first of two bad turnouts
    let three = two_zones().route(0, &[], &[], &[], &[]).route(1, &[], &[], &[], &[]);
    c.sheet(6, 1, &three.bytes()); // the first of two bad routes
    let mut many = two_zones();
    many.routes = vec![many.routes[0]; 40];
    c.sheet(0, 0, &many.bytes()); // forty equal routes
    many.routes[39].1[3] = 1;
    c.sheet(6, 39, &many.bytes()); // the last of forty is bad
}
