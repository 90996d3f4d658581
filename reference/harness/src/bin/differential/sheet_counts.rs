//! Counts of sheets read: by version and code, the groups of those accepted by size, and what was wrong with a group.
//! SHEET-2, SHEET-3, SHEET-11.

use crate::route_counts::Routes;
use reference::group::{carriers, ALONE};
use reference::set::{members, Set};
use reference::sheet::SheetFault;
use reference::station::Station;

const CODES: [(usize, &str); 5] = [(0, "accepted"), (1, "length"), (4, "counts"), (5, "turnout"), (6, "route")];

/// Why a turnout record of version 2 is bad: by itself, then as the first carrier of a wrong group.
const FAULTS: [&str; 7] = [
    "for its zone",
    "for its drive",
    "for a number from 32 to 254",
    "for a group of one",
    "for a group of more than 8",
    "for a group of two zones",
    "for a group of two drives",
];
const BY_ITSELF: usize = 3;

const ORDERS: [&str; 4] = [
    "before the first carrier of a wrong group",
    "at the first carrier of a wrong group, before a record bad by itself",
    "at the first carrier, a later one with an impossible zone",
    "at the first carrier, a later one with an impossible drive",
];

#[derive(Default)]
pub struct Sheets {
    /// Of 8 bytes and more with the mark, by version and code.
    codes: [[u64; 7]; 2],
    /// 3, by the version's lower byte: one that would be read, were it all, or another.
    versions: [u64; 2],
    /// Groups of accepted sheets of version 2, by size.
    groups: [u64; 9],
    /// Crossovers of accepted sheets of version 1.
    crossovers: u64,
    /// 5 of version 2, by the only fault of the record.
    faults: [u64; 7],
    orders: [u64; 4],
    routes: Routes,
}

impl Sheets {
    /// A sheet, and its reading by this implementation.
    pub fn read(&mut self, bytes: &[u8], read: &Result<Station, SheetFault>) {
        let [b'S', b'P', b'T', high, low, ..] = *bytes else {
            return;
        };
        let code = usize::from(read.as_ref().map_or_else(|fault| fault.number(), |_| 0));
        let version = match (high, low, code) {
            (_, _, 3) => return self.versions[usize::from(!matches!(low, 1 | 2))] += 1,
            (_, 1, _) => 0,
            _ => 1,
        };
        if bytes.len() >= 8 {
            self.codes[version][code] += 1;
        }
        match read {
            Ok(station) => self.accepted(version, station),
            Err(SheetFault::Turnout(n)) if version == 1 => self.bad_turnout(bytes, usize::from(*n)),
            Err(SheetFault::Route(n)) => self.routes.bad(bytes, usize::from(*n)),
            _ => {}
        }
    }

    fn accepted(&mut self, version: usize, station: &Station) {
        let groups = station.groups();
        match version {
            0 => self.crossovers += groups.iter().count() as u64,
            _ => groups.iter().for_each(|(_, group)| self.groups[group.count_ones() as usize] += 1),
        }
        self.routes.accepted(station);
    }

    fn bad_turnout(&mut self, bytes: &[u8], n: usize) {
        let (turnouts, zones) = (usize::from(bytes[5]), bytes[7]);
        let records: Vec<&[u8]> = bytes[8..8 + 3 * turnouts].chunks_exact(3).collect();
        let found = faults(&records, n, zones);
        if let [fault] = found[..] {
            self.faults[fault] += 1;
        }
        let of_group = |n: usize| faults(&records, n, zones).iter().any(|&fault| fault >= BY_ITSELF);
        let by_itself = |n: usize| faults(&records, n, zones).iter().any(|&fault| fault < BY_ITSELF);
        let later = |field: usize, least: u8| {
            let same_group = |record: &&&[u8]| record[1] == records[n][1];
            of_group(n) && !by_itself(n) && records.iter().filter(same_group).any(|record| record[field] >= least)
        };
        let occurred = [
            !of_group(n) && (n + 1..turnouts).any(of_group),
            of_group(n) && !by_itself(n) && (n + 1..turnouts).any(by_itself),
            later(0, zones),
            later(2, 2),
        ];
        for (count, occurred) in self.orders.iter_mut().zip(occurred) {
            *count += u64::from(occurred);
        }
    }

    pub fn counts(&self) -> Vec<(String, u64)> {
        let mut counts = Vec::new();
        for (version, codes) in (1..).zip(self.codes) {
            counts.extend(
                CODES.map(|(code, name)| (format!("sheet of version {version}, code {code}, {name}"), codes[code])),
            );
        }
        let [by_upper_byte, other] = self.versions;
        counts.push(("sheet of a version whose lower byte is 1 or 2, code 3".to_string(), by_upper_byte));
        counts.push(("sheet of another version, code 3".to_string(), other));
        counts.push(("accepted crossovers of version 1".to_string(), self.crossovers));
        counts.extend((2..=8).map(|size| (format!("accepted groups of {size}"), self.groups[size])));
        counts.extend(
            FAULTS.iter().zip(self.faults).map(|(fault, count)| (format!("version 2, 5 {fault} alone"), count)),
        );
        counts.extend(ORDERS.iter().zip(self.orders).map(|(order, count)| (format!("version 2, 5 {order}"), count)));
        counts.extend(self.routes.counts());
        counts
    }
}

/// The faults of turnout record `n` of version 2, as numbers of `FAULTS`.
fn faults(records: &[&[u8]], n: usize, zones: u8) -> Vec<usize> {
    let (zone, number, drive) = (records[n][0], records[n][1], records[n][2]);
    let tied = carriers(records.iter().map(|record| record[1])).get(usize::from(number)).copied().unwrap_or(0);
    let first = tied != 0 && tied.trailing_zeros() as usize == n;
    let differ = |field: usize| members(tied).any(|other| records[usize::from(other)][field] != records[n][field]);
    let size = Set::count_ones(tied);
    let found = [
        zone >= zones,
        drive > 1,
        (32..ALONE).contains(&number),
        first && size == 1,
        first && size > 8,
        first && differ(0),
        first && differ(2),
    ];
    (0..found.len()).filter(|&fault| found[fault]).collect()
}
