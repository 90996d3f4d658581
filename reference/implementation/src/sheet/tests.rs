//! Reading: station K, the two versions, groups and partners, routes over groups. SHEET-1 to SHEET-14, K-1, K-11.

use super::*;
use crate::builders::{group_station, station_k, station_k_in_version_2};
use crate::drafts::Sheet;
use crate::group::ALONE;
use crate::set::of;

fn answer(sheet: &Sheet) -> (u8, u8) {
    read(&sheet.bytes()).map_or_else(|fault| (fault.number(), fault.index()), |_| (0, 0))
}

/// Version 2, two zones: each turnout's zone, number and drive.
fn records(turnouts: &[[u8; 3]]) -> (u8, u8) {
    answer(&Sheet { turnouts: turnouts.to_vec(), ..Sheet::of_version_2(2) })
}

/// Version 2, one zone, electric: a turnout for each number.
fn numbers(numbers: &[u8]) -> (u8, u8) {
    answer(&Sheet::of_version_2(1).carriers(0, ELECTRIC, numbers))
}

/// The group of each turnout, 255 for alone.
fn groups(sheet: &Sheet) -> Vec<u8> {
    let station = read(&sheet.bytes()).expect("a good sheet");
    station.turnouts.iter().map(|turnout| turnout.group.unwrap_or(ALONE)).collect()
}

#[test]
fn sheet_of_station_k_has_50_bytes() {
    for sheet in [station_k(), station_k_in_version_2()].map(|sheet| sheet.bytes()) {
        assert_eq!(sheet.len(), 50);
        assert_eq!(read(&sheet[..49]), Err(SheetFault::Length));
        assert_eq!(read(&[&sheet[..], &[0]].concat()), Err(SheetFault::Length));
    }
}

/// K-1: "A sheet of version 2, in which 0 and 1 are group 0, gives the same station".
#[test]
fn station_k_in_both_versions() {
    let (old, new) = (station_k().bytes(), station_k_in_version_2().bytes());
    assert_eq!(read(&old), read(&new));
    assert!(read(&old).is_ok());
    assert_eq!(old[..17], *b"SPT\x00\x01\x03\x01\x01\x00\x01\x00\x00\x00\x00\x00\xFF\x01");
    assert_eq!(new[..17], *b"SPT\x00\x02\x03\x01\x01\x00\x00\x00\x00\x00\x00\x00\xFF\x01");
    assert_eq!(old[17..], new[17..]);
}

/// SHEET-11: "version (3: neither 1 nor 2)". All 16 bits count.
#[test]
fn versions() {
    for version in [0, 3, 4, 255, 256, 257, 258, 0x0201, 0x0102, 0xFF01, 0xFF02, u16::MAX] {
        assert_eq!(answer(&Sheet { version, ..station_k() }), (3, 0), "{version}");
        assert_eq!(answer(&Sheet { version, ..station_k_in_version_2() }), (3, 0), "{version}");
    }
    // Station K's bytes of each version, read as the other's.
    assert_eq!(answer(&Sheet { version: 2, ..station_k() }), (5, 0));
    assert_eq!(answer(&Sheet { version: 1, ..station_k_in_version_2() }), (5, 0));
}

/// SHEET-14: "the crossovers of 0 with 5 and of 2 with 3 are groups 0 and 1".
#[test]
fn crossovers_become_groups() {
    let hand = |partners: &[u8]| Sheet::new(1).carriers(0, HAND, partners);
    assert_eq!(groups(&hand(&[5, 255, 3, 2, 255, 0])), [0, 255, 1, 1, 255, 0]);
    assert_eq!(groups(&hand(&[255, 3, 4, 1, 2])), [255, 0, 1, 0, 1]);
    assert_eq!(groups(&hand(&[255, 255])), [255, 255]);
    let nested: Vec<u8> = (0..64).rev().collect();
    assert_eq!(groups(&hand(&nested)), (0..32).chain((0..32).rev()).collect::<Vec<_>>());
    let plain = Sheet::new(1).crossover(0, ELECTRIC).turnout(0, HAND).crossover(0, HAND);
    assert_eq!(groups(&plain), [0, 0, 255, 1, 1]);
}

/// SHEET-13: its own conditions, and the index of the record that breaks them.
#[test]
fn partners() {
    let electric = |partners: &[u8]| answer(&Sheet::new(1).carriers(0, ELECTRIC, partners));
    assert_eq!(electric(&[1, 255]), (5, 0));
    assert_eq!(electric(&[255, 0]), (5, 1));
    assert_eq!(electric(&[0]), (5, 0)); // itself
    assert_eq!(electric(&[255, 2]), (5, 1)); // P
    assert_eq!(electric(&[1, 0, 0]), (5, 2));
    assert_eq!(electric(&[1, 2, 0]), (5, 0));
    assert_eq!(electric(&[254]), (5, 0));
    let apart = |second: [u8; 3]| answer(&Sheet { turnouts: vec![[0, 1, 0], second], ..Sheet::new(2) });
    assert_eq!(apart([0, 0, 0]), (0, 0));
    assert_eq!(apart([1, 0, 0]), (5, 0));
    assert_eq!(apart([0, 0, 1]), (5, 0));
    assert_eq!(apart([2, 0, 0]), (5, 0));
    assert_eq!(apart([0, 0, 2]), (5, 0));
}

/// SHEET-3: "2 to 8 turnouts".
#[test]
fn sizes_of_groups() {
    for size in 1..=64 {
        let code = if (2..=8).contains(&size) { 0 } else { 5 };
        assert_eq!(numbers(&vec![31; size]), (code, 0), "{size}");
        assert_eq!(
            answer(&Sheet::of_version_2(1).turnout(0, HAND).group(0, HAND, size - 1)).0 == 0,
            size != 2 && size <= 9
        );
    }
    assert_eq!(numbers(&[0, 1, 2, 3, 3, 2, 1, 0]), (0, 0));
    assert_eq!(groups(&group_station()), [0, 0, 0, 1, 1, 2, 2, 2, 2, 2, 2, 2, 2, 255]);
    let all: Vec<u8> = (0..32).chain(0..32).collect();
    assert_eq!(numbers(&all), (0, 0));
}

/// SHEET-2: "the number of its group, 0 to 31, or 255 for alone".
#[test]
fn numbers_of_groups() {
    for number in 0..=255 {
        let code = if number <= 31 || number == ALONE { 0 } else { 5 };
        assert_eq!(numbers(&[255, number, number]), (code, code / 5), "{number}");
    }
}

/// SHEET-3: "of one zone and one drive, whichever it is".
#[test]
fn zones_and_drives_of_groups() {
    let hand = [1, 9, HAND];
    assert_eq!(records(&[[0, 9, HAND], [0, 9, HAND]]), (0, 0));
    assert_eq!(records(&[[1, 9, ELECTRIC], [1, 9, ELECTRIC], [1, 9, ELECTRIC]]), (0, 0));
    assert_eq!(records(&[[0, ALONE, 0], hand, hand, [0, 9, HAND]]), (5, 1));
    assert_eq!(records(&[[0, ALONE, 0], hand, [1, 9, ELECTRIC], hand]), (5, 1));
    assert_eq!(records(&[[0, 0, 0], [1, 0, 1]]), (5, 0));
    // A later carrier with an impossible zone or drive: the first one's index.
    assert_eq!(records(&[[0, ALONE, 0], hand, [2, 9, HAND]]), (5, 1));
    assert_eq!(records(&[[0, ALONE, 0], hand, [1, 9, 2]]), (5, 1));
    // All carriers alike and impossible: the first, by itself.
    assert_eq!(records(&[[0, ALONE, 0], [2, 9, 0], [2, 9, 0]]), (5, 1));
}

/// SHEET-11: the lowest bad index, by itself or as the first carrier of a wrong group.
#[test]
fn first_bad_record() {
    // Number 4 is carried by 3 and 6 of two drives.
    let wrong = [[0, 1, 0], [0, 1, 0], [0, ALONE, 0], [0, 4, 0], [0, ALONE, 1], [0, ALONE, 0], [0, 4, 1]];
    assert_eq!(records(&wrong), (5, 3));
    let with = |n: usize, record: [u8; 3]| {
        let mut changed = wrong;
        changed[n] = record;
        records(&changed)
    };
    for bad in [[2, ALONE, 0], [0, 32, 0], [0, 254, 0], [0, ALONE, 2], [0, 7, 0]] {
        assert_eq!(with(2, bad), (5, 2), "{bad:?}");
        assert_eq!(with(5, bad), (5, 3), "{bad:?}");
    }
    assert_eq!(with(1, [0, 4, 0]), (5, 0)); // 0 is left alone with number 1, before 1 starts the wrong group
    assert_eq!(with(6, [0, 4, 0]), (0, 0));
    assert_eq!(with(6, [0, 1, 1]), (5, 0)); // now number 1 has two drives, and 3 a number for itself
}

/// SHEET-8: "the whole group of a flank turnout is flank"; "run over and exit zone may name a part of a group".
#[test]
fn flank_of_a_route() {
    let sheet = || Sheet::of_version_2(1).group(0, HAND, 3).turnout(0, HAND);
    let flank = |flank: &[u8]| answer(&sheet().route(0, &[3], flank, &[], &[]));
    assert_eq!([flank(&[]), flank(&[0, 1, 2])], [(0, 0); 2]);
    for part in [&[0][..], &[1], &[2], &[0, 1], &[1, 2], &[0, 2]] {
        assert_eq!(flank(part), (6, 0), "{part:?}");
    }
    // The rest of the group run over or in the exit zone does not make it whole.
    assert_eq!(answer(&sheet().route(0, &[0], &[1, 2], &[], &[])), (6, 0));
    assert_eq!(answer(&sheet().route(0, &[3], &[1, 2], &[0], &[])), (6, 0));
    assert_eq!(answer(&sheet().route(0, &[0], &[], &[1], &[])), (0, 0));
    assert_eq!(answer(&sheet().route(0, &[3], &[], &[2], &[])), (0, 0));
}

/// SHEET-9: a group of two, both named; "Of larger groups nothing is asked here".
#[test]
fn equal_position() {
    let two = |named: &[u8], reverse: &[u8]| {
        answer(&Sheet::of_version_2(1).carriers(0, HAND, &[3, 3]).route(0, named, &[], &[], reverse))
    };
    assert_eq!([two(&[0, 1], &[]), two(&[0, 1], &[0, 1]), two(&[0], &[0]), two(&[1], &[])], [(0, 0); 4]);
    assert_eq!([two(&[0, 1], &[0]), two(&[0, 1], &[1])], [(6, 0); 2]);
    for size in 3..=8 {
        let tied = Sheet::of_version_2(1).group(0, HAND, size).route(0, &[0, 1, 2], &[], &[], &[1]);
        assert_eq!(answer(&tied), (0, 0), "{size}");
    }
    let exit = Sheet::of_version_2(1).group(0, HAND, 2).turnout(0, HAND);
    assert_eq!(answer(&exit.route(0, &[0], &[], &[1], &[1])), (6, 0));
}

/// SHEET-12: "turnouts past P are of no group".
#[test]
fn groups_below_p() {
    let sheet = Sheet::of_version_2(1).carriers(0, ELECTRIC, &[0, 0]);
    let station = read(&sheet.bytes()).expect("two turnouts");
    assert_eq!(station.groups().iter().collect::<Vec<_>>(), [(0, of(&[0, 1]))]);
    assert!(!station.in_group(2));
}
