//! The calls that are timed, library beside reference, and their table: nanoseconds of each, and their ratio.

use crate::inputs::{self, Inputs, Tied};
use crate::timing::{least, Pair};
use harness::{library, trial};
use reference::message::RECORD;
use reference::sheet::SheetFault;
use reference::station::Station;
use reference::unit::{self, DESK};
use reference::writer::{self, RawStation};
use reference::{builders, panel, replay, sheet};
use std::hint::black_box;

/// A journal of so many records replayed.
pub fn replayed<'a>(name: &str, sheet: &'a [u8], journal: &'a [u8], records: usize) -> Pair<'a> {
    let mut by_library = vec![0; records * replay::ANSWER];
    let mut by_reference = by_library.clone();
    assert_eq!(library::replay(sheet, journal, &mut by_library), replay::replay(sheet, journal, &mut by_reference));
    assert_eq!(by_library, by_reference);
    Pair {
        name: name.to_string(),
        units: records,
        library: Box::new(move || {
            black_box(library::replay(black_box(sheet), journal, &mut by_library));
        }),
        reference: Box::new(move || {
            black_box(replay::replay(black_box(sheet), journal, &mut by_reference));
        }),
    }
}

/// All records heard one by one, each over the bytes that the one before left, from a fresh desk on.
fn one_by_one(records: &[[u8; RECORD]], mut apply: impl FnMut(&mut [u8], &[u8]) -> u8) -> [u8; DESK] {
    let mut desk = [0; DESK];
    unit::fresh(&mut desk);
    for record in records {
        assert_eq!(apply(&mut desk, record), 0);
    }
    desk
}

/// A unit's messages, of which all are accepted; the reference reads the sheet for each message as the library does, or
/// has read it before.
fn units<'a>(name: &str, sheet: &'a [u8], records: &'a [[u8; RECORD]], sheet_each_time: bool) -> Pair<'a> {
    let station = sheet::read(sheet).expect("a good sheet");
    let by_library =
        move || one_by_one(records, |desk, record| library::unit_apply(black_box(sheet), desk, record) as u8);
    let by_reference = move || {
        one_by_one(records, |desk, record| match sheet_each_time {
            true => black_box(unit::apply(black_box(sheet), desk, record)).0,
            false => black_box(unit::apply_at(black_box(&station), desk, record)).0,
        })
    };
    assert_eq!(by_library(), by_reference());
    Pair {
        name: name.to_string(),
        units: records.len(),
        library: Box::new(move || {
            black_box(by_library());
        }),
        reference: Box::new(move || {
            black_box(by_reference());
        }),
    }
}

/// A good sheet read, by the desk or by the panel.
pub fn read<'a>(
    name: &str,
    sheet: &'a [u8],
    by_library: fn(&[u8]) -> u32,
    by_reference: fn(&[u8]) -> Result<Station, SheetFault>,
) -> Pair<'a> {
    assert_eq!((by_library(sheet), by_reference(sheet).is_ok()), (0, true));
    Pair {
        name: name.to_string(),
        units: 1,
        library: Box::new(move || {
            black_box(by_library(black_box(sheet)));
        }),
        reference: Box::new(move || {
            black_box(by_reference(black_box(sheet)).is_ok());
        }),
    }
}

/// A good sheet copied into a buffer of its length.
fn copied<'a>(name: &str, sheet: &'a [u8]) -> Pair<'a> {
    let mut by_library = vec![0; sheet.len()];
    let mut by_reference = by_library.clone();
    assert_eq!(library::copy_sheet(sheet, &mut by_library), 0);
    assert_eq!(writer::copy_sheet(sheet, &mut by_reference), [0, 0]);
    assert_eq!(by_library, by_reference);
    Pair {
        name: name.to_string(),
        units: 1,
        library: Box::new(move || {
            black_box(library::copy_sheet(black_box(sheet), &mut by_library));
        }),
        reference: Box::new(move || {
            black_box(writer::copy_sheet(black_box(sheet), &mut by_reference));
        }),
    }
}

/// The station of a good sheet of version 2, handed over by its values, written.
fn written<'a>(name: &str, sheet: &[u8]) -> Pair<'a> {
    let station = RawStation::from(&sheet::read(sheet).expect("a good sheet"));
    let values = trial::values(&station);
    let mut by_library = vec![0; sheet.len()];
    let mut by_reference = by_library.clone();
    assert_eq!(library::write_sheet(&values, &mut by_library), 0);
    assert_eq!(writer::write(&trial::station(&values), &mut by_reference), Ok(()));
    assert_eq!((&by_library[..], &by_reference[..]), (sheet, sheet));
    Pair {
        name: name.to_string(),
        units: 1,
        library: Box::new(move || {
            black_box(library::write_sheet(black_box(&values), &mut by_library));
        }),
        reference: Box::new(move || {
            black_box(writer::write(&trial::station(black_box(&values)), &mut by_reference).is_ok());
        }),
    }
}

fn verdicts<'a>() -> Pair<'a> {
    let all =
        || (1..=3).flat_map(|line| (0..=5).flat_map(move |signal| (0..=63).map(move |flags| (line, signal, flags))));
    Pair {
        name: "verdict".to_string(),
        units: 1152,
        library: Box::new(move || {
            all().for_each(|(line, signal, flags)| {
                black_box(library::verdict(black_box(line), signal, flags));
            })
        }),
        reference: Box::new(move || {
            all().for_each(|(line, signal, flags)| {
                black_box(replay::verdict_numbers(black_box(line), signal, flags));
            })
        }),
    }
}

/// Prints a line for each pair, a unit of its work.
pub fn table(inputs: &Inputs) {
    let Inputs { large, talk, records } = inputs;
    let (k, talk_k) = (inputs::station_k(), inputs::talk_k());
    let records_k = inputs::accepted(&k, &talk_k);
    let [twos, eights] = [2, 8].map(|size| inputs::largest_station(Tied::Groups(size)));
    let (end, seven) = (inputs::split_requests(&[62]), inputs::split_requests(&[56, 57, 58, 59, 60, 61, 62]));
    let panel_sheet = builders::largest_panel_station().bytes();
    let mut pairs = [
        replayed("replay, station K, a message", &k, &talk_k, inputs::RECORDS),
        replayed("replay, largest station, a message", large, talk, inputs::RECORDS),
        replayed("replay, largest station, a kind 1", large, &end, inputs::RECORDS),
        replayed("  in groups of 8", &eights, &seven, inputs::RECORDS),
        read("largest sheet, version 1", large, library::sheet, sheet::read),
        read("  version 2, groups of two", &twos, library::sheet, sheet::read),
        read("  version 2, groups of 8", &eights, library::sheet, sheet::read),
        read("largest panel sheet", &panel_sheet, library::panel_sheet, panel::read),
        copied("largest sheet copied, version 1", large),
        copied("  version 2, groups of 8", &eights),
        written("largest sheet written, groups of two", &twos),
        written("  groups of 8", &eights),
        verdicts(),
        units("unit_apply, station K, a message", &k, &records_k, true),
        units("  reference without reading its sheet", &k, &records_k, false),
        units("unit_apply, largest station, a message", large, records, true),
        units("  reference without reading its sheet", large, records, false),
    ];
    println!("{:<42} {:>12} {:>12} {:>8}", "", "library ns", "reference ns", "ratio");
    for (times, pair) in least(&mut pairs).iter().zip(&pairs) {
        let each = |time: u64| time as f64 / pair.units as f64;
        let (library, reference) = (each(times.library), each(times.reference));
        println!("{:<42} {library:>12.1} {reference:>12.1} {:>8.2}", pair.name, library / reference);
    }
}
