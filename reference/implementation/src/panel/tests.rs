//! The cabin panel's reading: its limits, their place in the order of checks, and the desk's reading beside it.
//! PANEL-1, PANEL-2, PANEL-3.

use crate::builders::{
    group_station, largest_panel_station, largest_station, plain_station, station_k, station_k_in_version_2,
};
use crate::drafts::Sheet;
use crate::refusal::number;
use crate::replay::sheet_number;
use crate::sheet::{ELECTRIC, HAND};
use crate::writer::{write, RawStation};
use crate::{panel, sheet};

/// The sheet's bytes with the one at `at` replaced.
fn with(sheet: &Sheet, at: usize, value: u8) -> Vec<u8> {
    let mut bytes = sheet.bytes();
    bytes[at] = value;
    bytes
}

/// Code and index by the desk and by the panel.
fn answers(bytes: &[u8]) -> [(u8, u8); 2] {
    [sheet::read(bytes), panel::read(bytes)].map(|read| {
        let [code, index, ..] = sheet_number(&read).to_le_bytes();
        (code, index)
    })
}

/// Desk and panel give the same station.
fn both_accept(sheet: &Sheet) {
    let bytes = sheet.bytes();
    let station = sheet::read(&bytes).expect("a sheet that the desk accepts");
    assert_eq!(panel::read(&bytes), Ok(station.clone()));
    assert_eq!(panel::station(&bytes), RawStation::from(&station));
}

/// Desk and panel refuse by the same code and index, and the panel's station is the empty one.
fn both_refuse(code: u8, index: u8, bytes: &[u8]) {
    assert_eq!(answers(bytes), [(code, index); 2]);
    assert_eq!(panel::station(bytes), RawStation::empty());
}

/// The panel refuses by 9, the desk answers otherwise.
fn beyond(desk: (u8, u8), bytes: &[u8]) {
    assert_eq!(answers(bytes), [desk, (9, 0)]);
    let station = panel::station(bytes);
    assert_eq!(station, RawStation::empty());
    assert_eq!(number(&write(&station, &mut [0; 2_312])), 7);
}

#[test]
fn within_the_limits() {
    for sheet in [station_k(), largest_panel_station(), Sheet::new(8).turnout(7, ELECTRIC)] {
        both_accept(&sheet);
    }
    for sheet in [station_k_in_version_2(), group_station(), Sheet::of_version_2(8).group(7, HAND, 8)] {
        both_accept(&sheet);
    }
    for (turnouts, routes) in [(16, 8), (16, 0), (1, 8), (1, 0), (15, 7)] {
        both_accept(&plain_station(turnouts, routes));
    }
    let largest = panel::station(&largest_panel_station().bytes());
    assert_eq!((largest.turnouts, largest.routes, largest.zones), (16, 8, 2));
}

#[test]
fn beyond_the_limits() {
    for (turnouts, routes) in [(17, 8), (16, 9), (17, 9), (17, 0), (1, 9), (64, 0), (1, 64), (64, 64)] {
        beyond((0, 0), &plain_station(turnouts, routes).bytes());
    }
    beyond((0, 0), &largest_station().bytes());
}

/// PANEL-1: "of both versions". 9 comes before anything of the records, in both.
#[test]
fn both_versions() {
    for version in [1, 2] {
        let plain = |turnouts, routes| Sheet { version, ..plain_station(turnouts, routes) };
        both_accept(&plain(16, 8));
        for sheet in [plain(17, 8), plain(16, 9)] {
            beyond((0, 0), &sheet.bytes());
            beyond((1, 0), &sheet.bytes()[..8]);
            beyond((5, 0), &with(&sheet, 9, 0)); // its own partner; number 0 alone
            both_refuse(3, 0, &with(&sheet, 3, 1));
            both_refuse(4, 0, &with(&sheet, 5, 65));
        }
        both_refuse(5, 15, &with(&plain(16, 8), 8 + 3 * 15 + 1, 32));
    }
    both_refuse(5, 0, &Sheet::of_version_2(1).group(0, HAND, 9).bytes());
}

/// PANEL-2: "before the length".
#[test]
fn before_length_and_records() {
    for sheet in [plain_station(17, 8), plain_station(16, 9), plain_station(17, 9), plain_station(64, 64)] {
        let bytes = sheet.bytes();
        beyond((1, 0), &bytes[..bytes.len() - 1]);
        beyond((1, 0), &bytes[..8]);
        beyond((1, 0), &[bytes, vec![0]].concat());
    }
    beyond((5, 0), &with(&plain_station(17, 0), 8, 1));
    beyond((5, 16), &with(&plain_station(17, 0), 8 + 3 * 16, 1));
    beyond((6, 8), &with(&plain_station(1, 9), 8 + 3 + 33 * 8, 1));
}

/// PANEL-2: "after the counts are found in range".
#[test]
fn after_the_counts() {
    let seventeen = plain_station(17, 9);
    both_refuse(1, 0, &seventeen.bytes()[..7]);
    both_refuse(2, 0, &with(&seventeen, 2, b't'));
    both_refuse(3, 0, &with(&seventeen, 4, 3));
    both_refuse(3, 0, &with(&seventeen, 3, 1));
    for (at, count) in [(5, 0), (5, 65), (5, 255), (6, 65), (6, 255), (7, 0), (7, 9)] {
        both_refuse(4, 0, &with(&seventeen, at, count));
    }
}

#[test]
fn refusals_within_the_limits() {
    let full = plain_station(16, 8);
    let bytes = full.bytes();
    both_refuse(1, 0, &[]);
    both_refuse(1, 0, &bytes[..8]);
    both_refuse(1, 0, &bytes[..319]);
    both_refuse(1, 0, &[&bytes[..], &[0]].concat());
    both_refuse(5, 15, &with(&full, 8 + 3 * 15, 1));
    both_refuse(5, 15, &with(&full, 8 + 3 * 15 + 1, 16));
    both_refuse(6, 7, &with(&full, 8 + 3 * 16 + 33 * 7, 1));
    for (code, at, value) in [(2, 0, 0), (3, 4, 0), (4, 5, 0), (4, 7, 0), (4, 7, 9)] {
        both_refuse(code, 0, &with(&full, at, value));
    }
}

/// Every pair of counts, with eight bytes and no record: 4 out of range, 9 beyond the limits, and else the length.
#[test]
fn every_count() {
    for turnouts in 0..=255 {
        for routes in 0..=255 {
            let headers = [1, 2].map(|version| [b'S', b'P', b'T', 0, version, turnouts, routes, 8]);
            let code = match (turnouts, routes) {
                (0 | 65.., _) | (_, 65..) => 4,
                (17.., _) | (_, 9..) => 9,
                _ => 1,
            };
            let desk = if code == 4 { 4 } else { 1 };
            for header in headers {
                assert_eq!(answers(&header), [(desk, 0), (code, 0)], "{turnouts} turnouts, {routes} routes");
            }
        }
    }
}
