//! How cost grows with the input: the time of a whole call, of a unit of it, and how many times that of the row before.

use crate::inputs::{self, Inputs, Tied};
use crate::pairs::{read, replayed};
use crate::timing::{least, Pair, Times};
use harness::library;
use reference::sheet;

/// Records of the journals replayed on the largest station. None: what a replay costs before its first record, for the
/// most part the reading of its sheet.
const JOURNALS: [usize; 4] = [0, 64, 256, 1024];

/// Turnouts of the sheets read, and routes of each.
const SHEETS: [u8; 4] = [8, 16, 32, 64];

/// A replay by its records, a sheet of each version by its turnouts and routes.
pub fn tables(inputs: &Inputs) {
    let journals = JOURNALS.map(inputs::long_talk);
    let replays = JOURNALS.iter().zip(&journals).map(|(&records, journal)| {
        replayed(&format!("replay, largest station, {records} records"), &inputs.large, journal, records)
    });
    table("how cost grows: a replay", "a record", replays);
    for (version, tied) in [(1, Tied::Crossovers), (2, Tied::Groups(2))] {
        println!();
        let sheets = SHEETS.map(|turnouts| inputs::square_station(tied, turnouts));
        let readings = SHEETS.iter().zip(&sheets).map(|(&count, sheet)| Pair {
            units: usize::from(count) * usize::from(count),
            ..read(&format!("sheet of {count} turnouts and {count} routes"), sheet, library::sheet, sheet::read)
        });
        table(&format!("how cost grows: a sheet of version {version}"), "a pair", readings);
    }
}

/// Rows from the least input to the largest; `unit` names what the units are.
fn table<'a>(title: &str, unit: &str, pairs: impl Iterator<Item = Pair<'a>>) {
    let mut pairs: Vec<Pair> = pairs.collect();
    let times = least(&mut pairs);
    println!(
        "{title:<42} {:>12} {unit:>9} {:>7} {:>13} {unit:>9} {:>7}",
        "library ns", "growth", "reference ns", "growth"
    );
    for (n, (pair, row)) in pairs.iter().zip(&times).enumerate() {
        let before = n.checked_sub(1).map(|n| times[n]);
        let shares = |of: fn(&Times) -> u64| shares(of(row), pair.units, before.as_ref().map(of));
        let (library, reference) = (shares(|times| times.library), shares(|times| times.reference));
        println!("{:<42} {:>12} {library} {:>13} {reference}", pair.name, row.library, row.reference);
    }
}

/// The time of a unit, and the growth over the row before; a dash where there is no unit or no row before.
fn shares(time: u64, units: usize, before: Option<u64>) -> String {
    let each = if units == 0 { "-".to_string() } else { format!("{:.1}", time as f64 / units as f64) };
    let growth = before.map_or("-".to_string(), |before| format!("{:.2}", time as f64 / before as f64));
    format!("{each:>9} {growth:>7}")
}
