//! Groups and the sets that split them, on stations as they stand. VALUE-1, VALUE-2: a count over its limit is read as
//! the limit; a number from 32 on, or that one turnout below P alone carries, as alone.

use crate::builders::{group_station, largest_station, station_k, station_k_in_version_2};
use crate::group::{carriers, Groups, ALONE};
use crate::set::{of, Set};
use crate::sheet;
use crate::writer::{RawStation, RawTurnout, RECORDS};

const ALL: Set = Set::MAX;

/// So many turnouts; those listed carry a number, the others none. All 64 records are there, whatever the count.
fn station(turnouts: u8, numbers: &[(usize, u8)]) -> RawStation {
    let alone = RawTurnout { group: ALONE, ..RawTurnout::default() };
    let mut station = RawStation { turnouts, turnout_records: [alone; RECORDS], ..RawStation::empty() };
    for &(turnout, number) in numbers {
        station.turnout_records[turnout].group = number;
    }
    station
}

fn splits(station: &RawStation, set: &[u8]) -> bool {
    station.splits_group(of(set))
}

#[test]
fn carriers_of_each_number() {
    let carried = carriers([31, 0, 32, 255, 31, 0, 254, 5].into_iter());
    assert_eq!((carried[0], carried[5], carried[31]), (of(&[1, 5]), of(&[7]), of(&[0, 4])));
    assert_eq!(carried.iter().map(|set| set.count_ones()).sum::<u32>(), 5);
    let groups = Groups::of([31, 0, 32, 255, 31, 0, 254, 5].into_iter());
    assert_eq!(groups.iter().collect::<Vec<_>>(), [(0, of(&[1, 5])), (31, of(&[0, 4]))]);
    assert_eq!([0, 1, 2, 7, 8, 64, 255].map(|n| groups.of_turnout(n)), [of(&[0, 4]), of(&[1, 5]), 0, 0, 0, 0, 0]);
    assert_eq!(groups.split_by(of(&[1, 0, 4])).collect::<Vec<_>>(), [(0, of(&[1, 5]))]);
}

#[test]
fn no_group_no_split() {
    let alone = station(64, &[]);
    for set in [0, 1, 1 << 63, ALL, ALL - 1, 0x5555_5555_5555_5555] {
        assert!(!alone.splits_group(set), "{set:#x}");
    }
}

#[test]
fn whole_or_not_at_all() {
    let tied = station(64, &[(0, 31), (63, 31), (30, 0), (31, 0), (40, 0)]);
    assert!(!splits(&tied, &[]));
    assert!(!splits(&tied, &[0, 63]));
    assert!(!splits(&tied, &[30, 31, 32, 40]));
    assert!(!tied.splits_group(ALL));
    for part in [&[0][..], &[63], &[0, 63, 30], &[0, 30, 31, 40], &[30, 31], &[40], &[31, 40, 1]] {
        assert!(splits(&tied, part), "{part:?}");
    }
    assert!(tied.splits_group(ALL - 1));
    assert!(tied.splits_group(ALL >> 1));
    assert!(tied.splits_group(ALL & !of(&[31])));
}

/// Groups of 2, 3, 8 and 9: of each size every single turnout, and all but one, splits it.
#[test]
fn of_every_size() {
    for size in [2, 3, 8, 9, 64] {
        let numbers: Vec<(usize, u8)> = (64 - size..64).map(|n| (n, 7)).collect();
        let tied = station(64, &numbers);
        let whole = numbers.iter().fold(0, |set, &(n, _)| set | 1 << n);
        assert!(!tied.splits_group(whole) && !tied.splits_group(!whole) && !tied.splits_group(ALL));
        for (n, _) in numbers {
            assert!(tied.splits_group(1 << n), "{size}, {n}");
            assert!(tied.splits_group(whole & !(1 << n)), "{size}, {n}");
        }
    }
}

/// VALUE-2: "A group number from 32 to 254, or one that a single turnout below P carries, is read as alone."
#[test]
fn read_as_alone() {
    for number in [32, 40, 63, 64, 128, 254, 255] {
        let odd = station(64, &[(0, number), (1, number), (63, number)]);
        assert!(!splits(&odd, &[0]) && !splits(&odd, &[0, 1]) && !splits(&odd, &[63]), "{number}");
    }
    let lone = station(64, &[(0, 0), (7, 7), (63, 31)]);
    for set in [&[0][..], &[7], &[63], &[0, 7, 63], &[]] {
        assert!(!splits(&lone, set), "{set:?}");
    }
}

/// VALUE-2: "a group, also where it has more than 8 turnouts, or several zones or drives".
#[test]
fn nine_over_two_zones() {
    let mut odd = station(20, &[0, 2, 4, 6, 8, 10, 12, 14, 16].map(|n| (n, 3)));
    odd.turnout_records[16].zone = 1;
    odd.turnout_records[0].drive = 9;
    assert!(splits(&odd, &[0]) && splits(&odd, &[16]) && splits(&odd, &[0, 2, 4, 6, 8, 10, 12, 14]));
    assert!(!splits(&odd, &[0, 2, 4, 6, 8, 10, 12, 14, 16]) && !splits(&odd, &[1, 3, 17]));
}

/// VALUE-2: "A turnout not below P is of no group, whatever its record holds."
#[test]
fn turnout_not_below_p() {
    // Record 10 is past 10 turnouts, and record 9 is the last below it.
    let past = station(10, &[(10, 3), (3, 3), (11, 4), (12, 4)]);
    assert!(!splits(&past, &[3]) && !splits(&past, &[10]) && !splits(&past, &[9]) && !splits(&past, &[11]));
    let last = station(10, &[(9, 3), (3, 3), (10, 3)]);
    assert!(splits(&last, &[3]) && splits(&last, &[9]) && !splits(&last, &[3, 9]) && splits(&last, &[3, 10]));
    // The records past P are 0 in a sheet's station, and would carry number 0.
    let zeros = RawStation { turnouts: 1, ..RawStation::empty() };
    assert!(!zeros.splits_group(1));
}

#[test]
fn every_count() {
    // 0 and 1 carry 5; 2, 62 and 63 carry 6. Sets {0,1}, {0}, {62}, {2,62} and {63}.
    let numbers = [(0, 5), (1, 5), (2, 6), (62, 6), (63, 6)];
    let sets: [&[u8]; 5] = [&[0, 1], &[0], &[62], &[2, 62], &[63]];
    let answers = |turnouts: u8| sets.map(|set| splits(&station(turnouts, &numbers), set));
    assert_eq!(answers(0), [false; 5]);
    assert_eq!(answers(1), [false; 5]); // turnout 1 is not below 1
    assert_eq!(answers(2), [false, true, false, false, false]);
    assert_eq!(answers(62), [false, true, false, false, false]);
    assert_eq!(answers(63), [false, true, true, false, false]);
    for turnouts in 64..=255 {
        assert_eq!(answers(turnouts), [false, true, true, true, true], "{turnouts}");
    }
}

#[test]
fn a_sheets_station_and_its_values() {
    for sheet in [station_k(), station_k_in_version_2(), group_station(), largest_station()] {
        let station = sheet::read(&sheet.bytes()).expect("a good sheet");
        let raw = RawStation::from(&station);
        assert_eq!(raw.groups(), station.groups());
        for set in [0, 1, 2, 3, 4, 7, 8, 12, 15, 24, 8160, 1 << 56, 3 << 56, 1 << 63, ALL] {
            assert_eq!(raw.splits_group(set), station.splits_group(set), "{set:#x}");
        }
    }
    let k = sheet::read(&station_k().bytes()).expect("station K");
    let answers = [&[][..], &[0], &[1], &[0, 1], &[2], &[0, 2], &[0, 1, 2]].map(|set| k.splits_group(of(set)));
    assert_eq!(answers, [false, true, true, false, false, true, false]);
}
