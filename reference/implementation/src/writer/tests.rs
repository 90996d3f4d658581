//! The writer: station K, the largest station, and stations that no sheet describes. WRITE-1, WRITE-2,
//! WRITE-3, WRITE-4, WRITE-5.

use crate::builders::{
    group_station, largest_station, largest_station_in_version_2, station_k, station_k_in_version_2,
};
use crate::drafts::Sheet;
use crate::group::ALONE;
use crate::refusal::number;
use crate::sheet::{self, ELECTRIC, HAND};
use crate::writer::{copy_sheet, write, RawStation, RawTurnout};

/// What a buffer holds before the call.
const BEFORE: u8 = 0xA5;

fn raw(sheet: &Sheet) -> RawStation {
    RawStation::from(&sheet::read(&sheet.bytes()).expect("a good sheet"))
}

/// Station K with something changed.
fn changed(change: impl FnOnce(&mut RawStation)) -> RawStation {
    let mut station = raw(&station_k());
    change(&mut station);
    station
}

/// The code, and the buffer of that length after the call.
fn written(station: &RawStation, length: usize) -> (u8, Vec<u8>) {
    let mut buffer = vec![BEFORE; length];
    let code = number(&write(station, &mut buffer));
    (code, buffer)
}

/// The sheet, and past it what was there before.
fn followed(sheet: &Sheet, more: usize) -> Vec<u8> {
    [sheet.bytes(), vec![BEFORE; more]].concat()
}

/// Turned away by the code, whatever the buffer, which stays.
fn refused(code: u8, station: &RawStation, lengths: &[usize]) {
    for &length in lengths {
        assert_eq!(written(station, length), (code, vec![BEFORE; length]), "{length} bytes");
    }
}

#[test]
fn station_k_into_its_length() {
    let (sheet, station) = (station_k_in_version_2(), raw(&station_k()));
    assert_eq!(station, raw(&sheet));
    assert_eq!(written(&station, 50), (0, followed(&sheet, 0)));
    assert_eq!(written(&station, 51), (0, followed(&sheet, 1)));
    assert_eq!(written(&station, 3000), (0, followed(&sheet, 2950)));
    refused(8, &station, &[49, 0, 8]);
}

#[test]
fn largest_station_into_its_length() {
    let (sheet, station) = (largest_station_in_version_2(), raw(&largest_station()));
    assert_eq!((station.turnouts, station.routes, station.zones), (64, 64, 8));
    assert_eq!(written(&station, 2312), (0, followed(&sheet, 0)));
    assert_eq!(written(&station, 2313), (0, followed(&sheet, 1)));
    refused(8, &station, &[2311, 0]);
}

#[test]
fn smallest_station_into_its_length() {
    let (sheet, station) = (Sheet::of_version_2(1).turnout(0, HAND), raw(&Sheet::new(1).turnout(0, HAND)));
    assert_eq!(written(&station, 11), (0, followed(&sheet, 0)));
    refused(8, &station, &[10, 0]);
}

/// WRITE-3: "with a group number from 32 to 254 or a wrong group".
#[test]
fn numbers_of_groups() {
    let lengths = [50, 49, 0, 60];
    refused(7, &changed(|station| station.turnout_records[1].group = ALONE), &lengths); // 0 alone carries 0
    refused(7, &changed(|station| station.turnout_records[0].group = ALONE), &lengths);
    refused(7, &changed(|station| station.turnout_records[2].group = 0), &lengths); // two drives
    for number in [1, 2, 3, 31, 32, 40, 64, 254] {
        refused(7, &changed(|station| station.turnout_records[2].group = number), &lengths);
    }
    refused(7, &changed(|station| station.turnout_records[1].drive = HAND), &lengths);
    // Any other number that both carry, and a group of three.
    let tied = |number: u8| changed(|station| station.turnout_records[..2].iter_mut().for_each(|t| t.group = number));
    assert_eq!([1, 30, 31, 32, 254, ALONE].map(|number| written(&tied(number), 50).0), [0, 0, 0, 7, 7, 0]);
    let three = changed(|station| station.turnout_records[2] = RawTurnout::default());
    assert_eq!(written(&three, 50).0, 7); // the flank takes a part of it
    let three = changed(|station| {
        station.turnout_records[2] = RawTurnout::default();
        station.route_records[0].flank = 0;
    });
    assert_eq!(written(&three, 50).0, 0);
}

/// Groups of two, three and eight, as they were read.
#[test]
fn groups_byte_for_byte() {
    let sheet = group_station();
    assert_eq!(written(&raw(&sheet), 116), (0, followed(&sheet, 0)));
    let odd = Sheet::of_version_2(2).carriers(1, HAND, &[31, 7, 31, 255, 7, 7]);
    assert_eq!(written(&raw(&odd), 30), (0, followed(&odd, 4)));
    let nine = Sheet::of_version_2(2).carriers(1, HAND, &[31; 8]);
    refused(7, &RawStation { turnouts: 9, ..raw(&nine) }, &[35, 36]); // the ninth carries 0, alone
}

#[test]
fn records() {
    let lengths = [50, 49, 0];
    refused(7, &changed(|station| station.turnout_records[2].zone = 1), &lengths);
    refused(7, &changed(|station| station.turnout_records[2].drive = 2), &lengths);
    refused(7, &changed(|station| station.route_records[0].zone = 1), &lengths);
    refused(7, &changed(|station| station.route_records[0].run_over = 0), &lengths);
    refused(7, &changed(|station| station.route_records[0].flank = 1), &lengths); // overlap
    refused(7, &changed(|station| station.route_records[0].exit_zone = 8), &lengths); // past P
    refused(7, &changed(|station| station.route_records[0].reverse = 2), &lengths); // outside the union
    let drive = changed(|station| station.turnout_records[2].drive = ELECTRIC);
    assert_eq!(written(&drive, 50).0, 0);
}

#[test]
fn numbers_past_the_counts() {
    let lengths = [50, 49, 0, 3000];
    for n in [3, 63] {
        refused(7, &changed(|station| station.turnout_records[n].zone = 1), &lengths);
        refused(7, &changed(|station| station.turnout_records[n].group = 255), &lengths);
        refused(7, &changed(|station| station.turnout_records[n].drive = 1), &lengths);
    }
    for n in [1, 63] {
        refused(7, &changed(|station| station.route_records[n].zone = 1), &lengths);
        refused(7, &changed(|station| station.route_records[n].run_over = 1), &lengths);
        refused(7, &changed(|station| station.route_records[n].flank = 1 << 63), &lengths);
        refused(7, &changed(|station| station.route_records[n].exit_zone = 2), &lengths);
        refused(7, &changed(|station| station.route_records[n].reverse = 1), &lengths);
    }
}

#[test]
fn counts() {
    let lengths = [50, 0, 10_000];
    for count in [0, 2, 10, 64, 65, 128, 255] {
        refused(7, &changed(|station| station.turnouts = count), &lengths);
    }
    // The records past the third are 0: electric, in group 0 with turnouts 0 and 1, up to eight.
    for count in 4..=9 {
        assert_eq!(written(&changed(|station| station.turnouts = count), 100).0, 0);
    }
    for count in [0, 2, 64, 65, 255] {
        refused(7, &changed(|station| station.routes = count), &lengths);
    }
    for count in [0, 9, 255] {
        refused(7, &changed(|station| station.zones = count), &lengths);
    }
    let full = raw(&largest_station());
    refused(7, &RawStation { turnouts: 65, ..full.clone() }, &[2312, 2315, 10_000, 0]);
    refused(7, &RawStation { routes: 65, ..full.clone() }, &[2312, 2345, 10_000, 0]);
    refused(7, &RawStation { zones: 9, ..full }, &[2312, 0]);
}

#[test]
fn empty_station() {
    refused(7, &RawStation::empty(), &[0, 7, 8, 11, 2312]);
    // Nor with one turnout: it alone carries number 0. Two to eight are a group.
    let of_zeros = |turnouts: u8| RawStation { turnouts, zones: 1, ..RawStation::empty() };
    refused(7, &of_zeros(1), &[0, 11]);
    refused(7, &of_zeros(9), &[0, 35]);
    for turnouts in 2..=8 {
        assert_eq!(written(&of_zeros(turnouts), 32).0, 0);
    }
}

/// 7 comes before 8.
#[test]
fn order_of_refusals() {
    let bad = changed(|station| station.turnout_records[1].group = 255);
    refused(7, &bad, &[0, 49]);
    refused(8, &raw(&station_k()), &[0, 49]);
}

fn copied(sheet: &[u8], length: usize) -> ([u8; 2], Vec<u8>) {
    let mut buffer = vec![BEFORE; length];
    (copy_sheet(sheet, &mut buffer), buffer)
}

/// WRITE-5: "A sheet of version 1 is so turned into one of version 2, of the same length".
#[test]
fn copies_of_both_versions() {
    let pairs = [
        (station_k(), station_k_in_version_2()),
        (largest_station(), largest_station_in_version_2()),
        (group_station(), group_station()),
        (Sheet::new(1).carriers(0, HAND, &[5, 255, 3, 2, 255, 0]), {
            Sheet::of_version_2(1).carriers(0, HAND, &[0, 255, 1, 1, 255, 0])
        }),
    ];
    for (old, new) in pairs {
        let length = new.bytes().len();
        for sheet in [&old, &new].map(Sheet::bytes) {
            assert_eq!(sheet.len(), length);
            assert_eq!(copied(&sheet, length), ([0, 0], followed(&new, 0)));
            assert_eq!(copied(&sheet, length + 1), ([0, 0], followed(&new, 1)));
            assert_eq!(copied(&sheet, length - 1), ([8, 0], vec![BEFORE; length - 1]));
            assert_eq!(copied(&sheet, 0), ([8, 0], vec![]));
        }
    }
}

#[test]
fn copies_of_refused_sheets() {
    let k = station_k();
    let with = |at: usize, value: u8| {
        let mut bytes = k.bytes();
        bytes[at] = value;
        bytes
    };
    let bad = [
        ([1, 0], k.bytes()[..49].to_vec()),
        ([2, 0], with(0, 0)),
        ([3, 0], with(4, 3)),
        ([3, 0], with(3, 1)),
        ([4, 0], with(7, 0)),
        ([5, 0], with(4, 2)), // its partners are no groups
        ([5, 2], with(16, 2)),
        ([6, 0], with(17, 1)),
    ];
    for (answer, sheet) in bad {
        for length in [50, 49, 0, 60] {
            assert_eq!(copied(&sheet, length), (answer, vec![BEFORE; length]));
        }
    }
}
