//! Comparisons of the cabin panel's reading, its sentences on the library's own answers, and counts of what occurred.
//! PANEL-1, PANEL-2, PANEL-3.

use crate::compare::{Comparison, Files};
use crate::{panel_sheets, Difference};
use harness::library;
use reference::{panel, replay, sheet};

/// Damaged sheets in each round, beside a good one.
const DAMAGED: usize = 5;

/// The panel's number for what is beyond its limits; the index with it is 0.
const BEYOND: u32 = 9;

impl Comparison {
    /// All counts near the limits.
    pub fn all_panel_counts(&mut self) -> Result<(), Difference> {
        panel_sheets::all_counts().try_for_each(|sheet| self.desk_and_panel(&sheet))
    }

    /// Sheets made for the panel, good and damaged.
    pub fn panel_sheets(&mut self) -> Result<(), Difference> {
        let good = panel_sheets::good(&mut self.rng);
        self.desk_and_panel(&good.bytes())?;
        for _ in 0..DAMAGED {
            let damaged = panel_sheets::damaged(&mut self.rng, &good);
            self.desk_and_panel(&damaged)?;
        }
        Ok(())
    }

    fn desk_and_panel(&mut self, bytes: &[u8]) -> Result<(), Difference> {
        let desk = library::sheet(bytes);
        let files = Files { sheet: bytes, journal: &[] };
        files.same(|| "desk_sheet(sheet)".into(), desk, replay::sheet_number(&sheet::read(bytes)))?;
        self.panel(bytes, desk)
    }

    /// A sheet, good or not, read by the panel; `desk` is what the library's desk_sheet answers.
    pub fn panel(&mut self, bytes: &[u8], desk: u32) -> Result<(), Difference> {
        let reference = replay::sheet_number(&panel::read(bytes));
        let panel = library::panel_sheet(bytes);
        self.tally.panel(bytes, reference, desk);
        let files = Files { sheet: bytes, journal: &[] };
        files.same(|| "panel_sheet(sheet)".into(), panel, reference)?;
        let beyond = beyond(bytes);
        files.same(|| "panel_sheet(sheet): 9 exactly beyond the limits".into(), panel == BEYOND, beyond)?;
        files.same(|| "desk_sheet(sheet): never 9".into(), desk as u8 == BEYOND as u8, false)?;
        if panel == 0 {
            files.same(|| "desk_sheet(sheet): what the panel accepts".into(), desk, 0)?;
        }
        if !beyond {
            files.same(|| "panel_sheet(sheet), not beyond the limits, as desk_sheet(sheet)".into(), panel, desk)?;
        }
        Ok(())
    }
}

/// PANEL-2: "more than 16 turnouts or 8 routes, .. after the counts are found in range". By the header's bytes alone.
fn beyond(bytes: &[u8]) -> bool {
    match *bytes {
        [b'S', b'P', b'T', 0, 1 | 2, turnouts @ 1..=64, routes @ 0..=64, 1..=8, ..] => turnouts > 16 || routes > 8,
        _ => false,
    }
}

/// What the panel answered.
#[derive(Default)]
pub struct Panels {
    /// Sheets under 8 bytes.
    short: u64,
    /// Of 8 bytes and more, by code: 1 is the length.
    codes: [u64; 10],
    /// 9, by what is too many.
    beyond: [u64; 3],
    /// 9, by the desk's code: what else is wrong.
    beyond_desk: [u64; 10],
    /// Accepted at the limits: 16 turnouts, 8 routes, both.
    full: [u64; 3],
    /// The last records within the limits: 5 with index 15, 6 with index 7.
    last: [u64; 2],
    /// By version, accepted, 5 and 9.
    versions: [[u64; 3]; 2],
}

const CODES: [(usize, &str); 8] = [
    (0, "accepted"),
    (1, "length"),
    (2, "mark"),
    (3, "version"),
    (4, "counts"),
    (5, "turnout"),
    (6, "route"),
    (9, "beyond the limits"),
];
const BY: [&str; 3] = ["turnouts alone", "routes alone", "both"];
const DESK: [(usize, &str); 4] =
    [(0, "accepts"), (1, "finds the length wrong"), (5, "finds a bad turnout"), (6, "finds a bad route")];
const FULL: [&str; 3] = ["16 turnouts", "8 routes", "16 turnouts and 8 routes"];
const LAST: [&str; 2] = ["5 with index 15", "6 with index 7"];
const OF_VERSION: [u8; 3] = [0, 5, 9];

impl Panels {
    /// A sheet, the panel's answer to it and the desk's.
    pub fn read(&mut self, bytes: &[u8], panel: u32, desk: u32) {
        let [_, _, _, _, version, turnouts, routes, _, ..] = *bytes else {
            self.short += 1;
            return;
        };
        let [code, index, ..] = panel.to_le_bytes();
        self.codes[usize::from(code)] += 1;
        if let (1 | 2, Some(place)) = (version, OF_VERSION.iter().position(|&other| other == code)) {
            self.versions[usize::from(version - 1)][place] += 1;
        }
        let (full_turnouts, full_routes) = (turnouts == 16, routes == 8);
        match code {
            0 => add(&mut self.full, [full_turnouts, full_routes, full_turnouts && full_routes]),
            5 => add(&mut self.last, [index == 15, false]),
            6 => add(&mut self.last, [false, index == 7]),
            9 => {
                let (by_turnouts, by_routes) = (turnouts > 16, routes > 8);
                add(&mut self.beyond, [!by_routes, !by_turnouts, by_turnouts && by_routes]);
                self.beyond_desk[usize::from(desk as u8)] += 1;
            }
            _ => {}
        }
    }

    /// Sheets read.
    pub fn sheets(&self) -> u64 {
        self.short + self.codes.iter().sum::<u64>()
    }

    pub fn counts(&self) -> Vec<(String, u64)> {
        let mut counts = vec![("panel, code 1, under 8 bytes".to_string(), self.short)];
        counts.extend(CODES.map(|(code, name)| (format!("panel, code {code}, {name}"), self.codes[code])));
        counts.extend(BY.iter().zip(self.beyond).map(|(by, count)| (format!("panel, code 9, by {by}"), count)));
        let desk = |(code, name)| (format!("panel, code 9, where the desk {name}"), self.beyond_desk[code]);
        counts.extend(DESK.map(desk));
        counts.extend(FULL.iter().zip(self.full).map(|(full, count)| (format!("panel, accepted with {full}"), count)));
        counts.extend(LAST.iter().zip(self.last).map(|(last, count)| (format!("panel, code {last}"), count)));
        for (version, codes) in (1..).zip(self.versions) {
            let named = |code: u8| format!("panel, version {version}, code {code}");
            counts.extend(OF_VERSION.into_iter().zip(codes).map(|(code, count)| (named(code), count)));
        }
        counts
    }
}

fn add<const N: usize>(counts: &mut [u64; N], occurred: [bool; N]) {
    for (count, occurred) in counts.iter_mut().zip(occurred) {
        *count += u64::from(occurred);
    }
}
