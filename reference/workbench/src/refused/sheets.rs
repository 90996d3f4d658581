//! A refused sheet in words: number, record index for 5 and 6, rule, what breaks it.

use super::with_here;
use crate::sheet_text::DRIVES;
use crate::{groups, kinds, words};
use reference::group::{carriers, ALONE};
use reference::set::{members, Set};
use reference::sheet::{self, SheetFault, HEADER, NO_PARTNER, ROUTE, TURNOUT};
use reference::station::{Route, Station};

pub fn refused(bytes: &[u8], fault: SheetFault) -> String {
    let number = fault.number();
    let (rule, here) = match fault {
        SheetFault::Length => ("length: at least 8 bytes, and exactly 8 + 3P + 33R", vec![length(bytes)]),
        SheetFault::Mark => (
            "mark: the first three bytes are the letters SPT",
            vec![format!("{:02x} {:02x} {:02x}", bytes[0], bytes[1], bytes[2])],
        ),
        SheetFault::Version => ("version: 16 bits, 1 or 2", vec![format!("version {}", version(bytes))]),
        SheetFault::Counts => {
            ("counts: P 1 to 64, R 0 to 64, Z 1 to 8", vec![format!("P {}, R {}, Z {}", bytes[5], bytes[6], bytes[7])])
        }
        SheetFault::Limits => (
            "more than 16 turnouts or 8 routes, the cabin panel's limits",
            vec![format!("P {}, R {}", bytes[5], bytes[6])],
        ),
        SheetFault::Turnout(n) => {
            let (rule, here) = turnout(bytes, n);
            return with_here(format!("refused by {number}: turnout record {n}: {rule}"), here);
        }
        SheetFault::Route(n) => {
            let rule = "run over, flank, exit zone disjoint; among the P turnouts, in the route's zone; run over not \
                        empty; reverse within the union; the flank takes a group whole or not at all (Art. 3.24); both \
                        turnouts of a group of two, if named, in the same position";
            return with_here(format!("refused by {number}: route record {n}: {rule}"), bad_route(bytes, n));
        }
    };
    with_here(format!("refused by {number}: {rule}"), here)
}

/// Of bytes with a whole header.
fn version(bytes: &[u8]) -> u16 {
    u16::from_be_bytes([bytes[3], bytes[4]])
}

fn length(bytes: &[u8]) -> String {
    let found = words::count(bytes.len(), "byte");
    match bytes {
        [_, _, _, _, _, turnouts, routes, _, ..] => {
            let needed = HEADER + TURNOUT * usize::from(*turnouts) + ROUTE * usize::from(*routes);
            format!("{found}; P {turnouts}, R {routes} need {needed}")
        }
        _ => found,
    }
}

/// Zone, partner or group's number, drive.
type Record = [u8; TURNOUT];

/// The rule of turnout records in the sheet's version, and what breaks it in record `n`.
fn turnout(bytes: &[u8], n: u8) -> (&'static str, Vec<String>) {
    let (turnouts, zones) = (usize::from(bytes[5]), bytes[7]);
    let records = bytes[HEADER..].chunks_exact(TURNOUT).take(turnouts);
    let records: Vec<Record> = records.map(|record| [record[0], record[1], record[2]]).collect();
    let [zone, _, drive] = records[usize::from(n)];
    let (rule, tied) = if version(bytes) == 1 {
        let rule = "zone below Z; a partner is below P, not itself, names it back, same zone and drive; drive 0 or 1";
        (rule, bad_partner(&records, n))
    } else {
        let rule = "zone below Z; group 0 to 31, or 255 for alone; drive 0 or 1; a group has 2 to 8 turnouts of one \
                    zone and one drive (Art. 2.19), else its first turnout is bad";
        (rule, bad_group(&records, n))
    };
    let bad_zone = (zone >= zones).then(|| format!("zone {zone} is not below Z, {zones}"));
    let bad_drive = (drive > 1).then(|| format!("drive {drive}"));
    (rule, bad_zone.into_iter().chain(tied).chain(bad_drive).collect())
}

/// SHEET-13.
fn bad_partner(records: &[Record], n: u8) -> Vec<String> {
    let [zone, partner, drive] = records[usize::from(n)];
    if partner == NO_PARTNER {
        return Vec::new();
    }
    if partner == n {
        return vec![format!("turnout {n} is its own partner")];
    }
    let Some(other) = records.get(usize::from(partner)) else {
        return vec![format!("partner {partner} is not below P, {}", records.len())];
    };
    let rules = [
        (other[1] == n, format!("partner {partner} does not name {n} back")),
        (other[0] == zone, format!("partner {partner} is in zone {}", other[0])),
        (other[2] == drive, format!("partner {partner} has another drive")),
    ];
    broken(rules)
}

/// SHEET-2, SHEET-3: of record `n`, which is the first carrier of its number where its group is wrong.
fn bad_group(records: &[Record], n: u8) -> Vec<String> {
    let [zone, number, drive] = records[usize::from(n)];
    if number == ALONE {
        return Vec::new();
    }
    let Some(&group) = carriers(records.iter().map(|record| record[1])).get(usize::from(number)) else {
        return vec![format!("group {number} is not 0 to 31")];
    };
    // The first of the group whose field is another than that of record `n`, with it.
    let other = |field: usize| {
        let mut fields = members(group).map(|other| (other, records[usize::from(other)][field]));
        fields.find(|(_, value)| *value != records[usize::from(n)][field])
    };
    let mut bad = Vec::new();
    match group.count_ones() {
        1 => bad.push(format!("group {number} has turnout {n} alone")),
        count @ 9.. => bad.push(format!("group {number} has {count} turnouts, {}", words::set(group))),
        _ => {}
    }
    if let Some((other, elsewhere)) = other(0) {
        bad.push(format!("group {number} is not of one zone: {n} is in zone {zone}, {other} in zone {elsewhere}"));
    }
    if let Some((other, otherwise)) = other(2) {
        let drives = [drive, otherwise].map(drive_words);
        bad.push(format!("group {number} is not of one drive: {n} is {}, {other} {}", drives[0], drives[1]));
    }
    bad
}

fn drive_words(drive: u8) -> String {
    kinds::word(&DRIVES, drive).map_or(format!("of drive {drive}"), str::to_string)
}

/// What is said of the rules that are not met.
fn broken<const N: usize>(rules: [(bool, String); N]) -> Vec<String> {
    rules.into_iter().filter(|(met, _)| !met).map(|(_, words)| words).collect()
}

/// What breaks the rule of routes in route record `n`; the turnouts have been read without fault.
fn bad_route(bytes: &[u8], n: u8) -> Vec<String> {
    let routes_at = HEADER + TURNOUT * usize::from(bytes[5]);
    let mut turnouts_only = bytes[..routes_at].to_vec();
    turnouts_only[6] = 0;
    let Ok(station) = sheet::read(&turnouts_only) else {
        return Vec::new();
    };
    let route = sheet::route_fields(&bytes[routes_at + ROUTE * usize::from(n)..][..ROUTE]);
    let outside = route.named() & !station.of_zone(route.zone);
    let rules = [
        (sheet::pairwise_disjoint(&route), "run over, flank and exit zone overlap".to_string()),
        (outside == 0, format!("{} not among the turnouts of zone {}", words::set(outside), route.zone)),
        (route.run_over != 0, "run over is empty".to_string()),
        (
            sheet::reverse_within_union(&route),
            format!("reverse {} is not named by the route", words::set(route.reverse & !route.named())),
        ),
    ];
    broken(rules).into_iter().chain(bad_groups(&route, &station)).collect()
}

/// SHEET-8, SHEET-9.
fn bad_groups(route: &Route, station: &Station) -> Vec<String> {
    let flank = groups::split(station, route.flank).into_iter().map(|part| format!("flank takes {part}"));
    let groups = station.groups();
    let both_named = |&(_, turnouts): &(u8, Set)| turnouts.count_ones() == 2 && turnouts & !route.named() == 0;
    let uneven = groups.split_by(route.reverse).filter(both_named).map(|(number, turnouts)| {
        let (reverse, normal) = (words::set(turnouts & route.reverse), words::set(turnouts & !route.reverse));
        format!("both turnouts of group {number} are named, {reverse} reverse and {normal} normal")
    });
    flank.chain(uneven).collect()
}

#[cfg(test)]
mod tests {
    use super::*;
    use reference::drafts::Sheet;

    /// Random records of both versions: whatever refuses them, the words say what breaks the rule.
    #[test]
    fn a_reason_for_every_refusal() {
        let mut seed = 5u64;
        let mut pick = |values: &[u8]| {
            seed = seed.wrapping_mul(6364136223846793005).wrapping_add(1442695040888963407);
            values[(seed >> 33) as usize % values.len()]
        };
        let mut seen = [[0; 2]; 2];
        for n in 0..20_000 {
            let mut sheet = Sheet { version: 1 + n % 2, ..Sheet::new(2) };
            for _ in 0..pick(&[1, 2, 3, 4, 10]) {
                let numbers: &[u8] = if n % 4 < 2 { &[255] } else { &[255, 255, 0, 0, 1, 2, 31, 32, 254] };
                sheet.turnouts.push([pick(&[0, 0, 0, 0, 1, 2]), pick(numbers), pick(&[0, 0, 0, 0, 0, 1, 2])]);
            }
            if n % 4 == 3 {
                sheet.turnouts = vec![[0, 7, 0], [0, 7, 0], [0, 3, 0], [0, 3, 0], [0, 3, 0], [0, 255, 0]];
            }
            let sets = [(); 4].map(|()| u64::from(pick(&[0, 1, 2, 3, 4, 12, 28, 32, 64])));
            sheet.routes.push((pick(&[0, 0, 0, 1, 2]), sets));
            let bytes = sheet.bytes();
            if let Err(fault) = sheet::read(&bytes) {
                let words = refused(&bytes, fault);
                assert!(words.contains(". Here: "), "{words}: {sheet:?}");
                assert!(matches!(fault, SheetFault::Turnout(_) | SheetFault::Route(_)), "{words}");
                seen[usize::from(n % 2)][usize::from(fault.number() == 6)] += 1;
            }
        }
        assert!(seen.as_flattened().iter().all(|times| *times > 500), "{seen:?}");
    }
}
