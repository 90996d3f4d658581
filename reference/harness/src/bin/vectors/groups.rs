//! Cases of sheets of version 2 and of what both versions share: groups, routes over them, copies, the cabin panel.
//! SHEET-1 to SHEET-14, WRITE-2, WRITE-5, PANEL-1.

use crate::cases::Cases;
use crate::sheets::two_zones;
use reference::builders::*;
use reference::drafts::Sheet;
use reference::group::ALONE;
use reference::sheet::{ELECTRIC, HAND};

const NONE: [u8; 3] = [0, ALONE, ELECTRIC];

pub fn add(cases: &mut Cases) {
    good(cases);
    versions(cases);
    numbers_and_sizes(cases);
    zones_and_drives(cases);
    first_bad_record(cases);
    flanks(cases);
    positions(cases);
    copies(cases);
    crossovers_copied(cases);
    panel(cases);
}

/// Version 2, one zone, by hand: a turnout for each number.
fn numbers(numbers: &[u8]) -> Vec<u8> {
    Sheet::of_version_2(1).carriers(0, HAND, numbers).bytes()
}

/// Version 2, two zones: zone, number and drive of each turnout.
fn records(turnouts: &[[u8; 3]]) -> Vec<u8> {
    Sheet { turnouts: turnouts.to_vec(), ..Sheet::of_version_2(2) }.bytes()
}

/// The groups 0, 0, 0, 1, 1 and turnout 5 alone, and a route.
fn routed(run_over: &[u8], flank: &[u8], exit_zone: &[u8], reverse: &[u8]) -> Vec<u8> {
    let turnouts = Sheet::of_version_2(1).group(0, HAND, 3).group(0, HAND, 2).turnout(0, HAND);
    turnouts.route(0, run_over, flank, exit_zone, reverse).bytes()
}

/// A buffer before the call: no two bytes in a row are the same, none is 0.
fn buffer(length: usize) -> Vec<u8> {
    (0..length).map(|n| 0xA5 - (n % 97) as u8).collect()
}

fn good(c: &mut Cases) {
    c.sheet(0, 0, &station_k_in_version_2().bytes()); // station K
    c.sheet(0, 0, &group_station().bytes()); // groups of three, two and eight, and one alone
    c.sheet(0, 0, &Sheet::of_version_2(1).turnout(0, ELECTRIC).bytes()); // the smallest
    let pairs: Vec<u8> = (0..32).chain(0..32).collect();
    c.sheet(0, 0, &numbers(&pairs)); // 32 groups of two
    let eights: Vec<u8> = (0..64).map(|n| 31 - n / 8).collect();
    c.sheet(0, 0, &numbers(&eights)); // eight groups of eight
}

/// SHEET-11: "version (3: neither 1 nor 2)".
fn versions(c: &mut Cases) {
    for version in [0, 3, 258, u16::MAX] {
        c.sheet(3, 0, &Sheet { version, ..station_k_in_version_2() }.bytes()); // all 16 bits count
    }
    c.sheet(5, 0, &Sheet { version: 1, ..station_k_in_version_2() }.bytes()); // its numbers are no partners
    let k = station_k_in_version_2().bytes();
    c.sheet(1, 0, &k[..49]); // 49 bytes
    c.sheet(1, 0, &[&k[..], &[0]].concat()); // 51 bytes
    c.sheet(4, 0, &[&k[..5], &[65], &k[6..]].concat()); // 65 turnouts
}

/// SHEET-2, SHEET-3: numbers 0 to 31, 2 to 8 turnouts.
fn numbers_and_sizes(c: &mut Cases) {
    for number in [0, 31] {
        c.sheet(0, 0, &numbers(&[ALONE, number, number])); // the first number, the last
    }
    for number in [32, 33, 63, 64, 128, 254] {
        c.sheet(5, 1, &numbers(&[ALONE, number, number])); // no group's
    }
    c.sheet(5, 0, &numbers(&[0])); // a group of one
    c.sheet(5, 2, &numbers(&[3, 3, 31, ALONE])); // a group of one beside one of two
    c.sheet(0, 0, &numbers(&[7; 2])); // of two
    c.sheet(0, 0, &numbers(&[7; 3])); // of three
    c.sheet(0, 0, &numbers(&[7; 8])); // of eight
    c.sheet(5, 0, &numbers(&[7; 9])); // of nine
    c.sheet(5, 1, &numbers(&[0, 1, 1, 1, 1, 0, 1, 1, 1, 1, 1])); // of nine, from turnout 1
    c.sheet(0, 0, &numbers(&[5, 4, 5, 4, 5, 4])); // two groups in turn
}

/// SHEET-3: "of one zone and one drive, whichever it is".
fn zones_and_drives(c: &mut Cases) {
    c.sheet(0, 0, &records(&[[1, 9, 0], [1, 9, 0], [1, 9, 0]])); // one zone, electric
    c.sheet(0, 0, &records(&[[0, 9, 1], [0, 9, 1], [1, 8, 0], [1, 8, 0]])); // two groups
    c.sheet(5, 1, &records(&[NONE, [1, 9, 1], [1, 9, 1], [0, 9, 1]])); // two zones
    c.sheet(5, 1, &records(&[NONE, [1, 9, 1], [1, 9, 1], [1, 9, 0]])); // two drives
    c.sheet(5, 1, &records(&[NONE, [0, 9, 0], [1, 9, 1]])); // both
    c.sheet(5, 1, &records(&[NONE, [1, 9, 1], NONE, [2, 9, 1]])); // a later one of an impossible zone
    c.sheet(5, 1, &records(&[NONE, [1, 9, 1], NONE, [1, 9, 2]])); // a later one of an impossible drive
    c.sheet(5, 1, &records(&[NONE, [2, 9, 1], [2, 9, 1]])); // all of an impossible zone
    c.sheet(5, 2, &records(&[NONE, NONE, [0, 9, 2], [0, 9, 2]])); // all of an impossible drive
}

/// SHEET-11: by itself, or as the first carrier of a wrong group; the lowest index.
fn first_bad_record(c: &mut Cases) {
    let wrong = [[0, 1, 0], [0, 1, 0], NONE, [0, 4, 0], NONE, NONE, [0, 4, 1]];
    let with = |n: usize, record: [u8; 3]| {
        let mut changed = wrong;
        changed[n] = record;
        records(&changed)
    };
    c.sheet(5, 3, &records(&wrong)); // the first carrier
    c.sheet(5, 2, &with(2, [2, ALONE, 0])); // a bad zone before it
    c.sheet(5, 2, &with(2, [0, 32, 0])); // a bad number before it
    c.sheet(5, 2, &with(2, [0, 5, 0])); // a lone number before it
    c.sheet(5, 3, &with(5, [2, ALONE, 0])); // a bad zone after it
    c.sheet(5, 3, &with(5, [0, 200, 2])); // a bad number and drive after it
    c.sheet(5, 0, &with(1, [0, 4, 0])); // 0 is left with a number for itself
    c.sheet(0, 0, &with(6, [0, 4, 0])); // mended
    let bad_route = Sheet { turnouts: wrong.to_vec(), ..Sheet::of_version_2(2) }.route(9, &[], &[], &[], &[]);
    c.sheet(5, 3, &bad_route.bytes()); // turnouts before routes
}

/// SHEET-8: "the whole group of a flank turnout is flank"; run over and exit zone may name a part.
fn flanks(c: &mut Cases) {
    c.sheet(0, 0, &routed(&[5], &[0, 1, 2], &[], &[])); // a whole group of three
    c.sheet(0, 0, &routed(&[5], &[0, 1, 2, 3, 4], &[], &[])); // two whole groups
    c.sheet(6, 0, &routed(&[5], &[0], &[], &[])); // one of three
    c.sheet(6, 0, &routed(&[5], &[0, 2], &[], &[])); // two of three
    c.sheet(6, 0, &routed(&[5], &[0, 1, 2, 4], &[], &[])); // a whole group and one of two
    c.sheet(6, 0, &routed(&[2], &[0, 1], &[], &[])); // the third run over
    c.sheet(6, 0, &routed(&[5], &[1, 2], &[0], &[])); // the first in the exit zone
    c.sheet(0, 0, &routed(&[0, 1], &[], &[], &[])); // two of three run over
    c.sheet(0, 0, &routed(&[0], &[], &[2, 3], &[])); // parts in run over and exit zone
}

/// SHEET-9: "The turnouts of a group of two, where both are named, have the same position."
fn positions(c: &mut Cases) {
    c.sheet(0, 0, &routed(&[3, 4], &[], &[], &[3, 4])); // both reverse
    c.sheet(6, 0, &routed(&[3, 4], &[], &[], &[4])); // one of them
    c.sheet(6, 0, &routed(&[3], &[], &[4], &[3])); // in run over and exit zone
    c.sheet(0, 0, &routed(&[3], &[], &[], &[3])); // one of two named
    c.sheet(0, 0, &routed(&[0, 1, 2], &[], &[], &[1])); // three, one reverse
    c.sheet(0, 0, &routed(&[5], &[0, 1, 2], &[], &[0, 2])); // three in the flank, two reverse
    c.sheet(0, 0, &routed(&[0, 1], &[], &[], &[1])); // two of three, two positions
}

/// WRITE-2: "A sheet of version 2 that is read and written comes out byte for byte."
fn copies(c: &mut Cases) {
    let (k, groups) = (station_k_in_version_2().bytes(), group_station().bytes());
    c.copied(0, 0, &k, &buffer(50)); // station K
    c.copied(0, 0, &k, &buffer(60)); // more bytes past it
    c.copied(0, 0, &groups, &buffer(117)); // groups of three, two and eight
    c.copied(0, 0, &numbers(&[31, 7, 31, ALONE, 7, 7]), &buffer(26)); // numbers as they were
    c.copied(8, 0, &groups, &buffer(115)); // a byte less
    c.copied(3, 0, &Sheet { version: 3, ..group_station() }.bytes(), &buffer(116)); // version 3
    c.copied(5, 2, &numbers(&[3, 3, 31]), &buffer(17)); // a group of one
    c.copied(5, 0, &numbers(&[3; 9]), &[]); // 5 before 8
    c.copied(6, 0, &routed(&[5], &[0], &[], &[]), &buffer(59)); // a split flank
}

/// WRITE-5: "A sheet of version 1 is so turned into one of version 2, of the same length".
fn crossovers_copied(c: &mut Cases) {
    let of = |partners: &[u8]| Sheet::new(1).carriers(0, HAND, partners).bytes();
    c.copied(0, 0, &of(&[5, ALONE, 3, 2, ALONE, 0]), &buffer(26)); // 0/5 and 2/3: groups 0 and 1
    c.copied(0, 0, &of(&[ALONE, 3, 4, 1, 2]), &buffer(23)); // 1/3 and 2/4
    c.copied(0, 0, &of(&[ALONE; 3]), &buffer(17)); // all alone
    let nested: Vec<u8> = (0..64).rev().collect();
    c.copied(0, 0, &of(&nested), &buffer(200)); // 0/63 to 31/32: groups 0 to 31
    c.copied(0, 0, &two_zones().bytes(), &buffer(62)); // two zones
}

/// PANEL-1: "the same sheets, of both versions". Before each 9 the desk would find more, or nothing.
fn panel(c: &mut Cases) {
    let plain = |turnouts, routes| Sheet { version: 2, ..plain_station(turnouts, routes) };
    c.panel(0, 0, &station_k_in_version_2().bytes()); // station K
    c.panel(0, 0, &group_station().bytes()); // groups of three, two and eight
    c.panel(0, 0, &plain(16, 8).bytes()); // 16 and 8
    c.panel(0, 0, &numbers(&[31; 8])); // a group of eight
    c.panel(9, 0, &plain(17, 0).bytes()); // 17 turnouts
    c.panel(9, 0, &plain(1, 9).bytes()); // 9 routes
    c.panel(9, 0, &plain(17, 0).bytes()[..8]); // before the length
    c.panel(9, 0, &numbers(&[9; 17])); // before a wrong group
    c.panel(5, 0, &numbers(&[9; 16])); // a wrong group within the limits
    c.panel(5, 15, &numbers(&[0, 0, 0, 0, 1, 1, 1, 1, 2, 2, 2, 2, 3, 3, 3, 32])); // turnout 15 with number 32
    c.panel(6, 0, &routed(&[5], &[0], &[], &[])); // a split flank
    c.panel(3, 0, &Sheet { version: 3, ..plain_station(17, 0) }.bytes()); // version 3 before 9
}
