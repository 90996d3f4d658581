//! Counts of what occurred, so that a run that never met a code, kind, regime or verdict is no test.

use crate::covers::Covers;
use crate::damaged_keys::DamagedKeys;
use crate::group_lists::Parts;
use crate::keys::Keys;
use crate::minutes::Minutes;
use crate::panels::Panels;
use crate::separation_counts::Separation;
use crate::sheet_counts::Sheets;
use crate::splits::Splits;
use reference::desk::Desk;
use reference::message::RECORD;
use reference::set::Set;
use reference::writer::RawStation;

const CODES: [u8; 30] =
    [0, 1, 2, 3, 4, 5, 6, 7, 8, 9, 10, 11, 12, 13, 14, 15, 16, 17, 18, 19, 20, 21, 22, 23, 30, 31, 32, 33, 60, 61];
const HEARD: [u8; 14] = [0, 11, 12, 13, 14, 15, 16, 17, 18, 19, 20, 21, 22, 23];
/// Of the writer on a station, and of a sheet copied.
const WRITTEN: [u8; 3] = [0, 7, 8];
const COPIED: [u8; 8] = [0, 1, 2, 3, 4, 5, 6, 8];
const REGIMES: [&str; 3] = ["held", "clear", "danger"];

pub struct Tally {
    /// Inputs so far, of all sorts.
    pub inputs: u64,
    pub heard: u64,
    pub lists: u64,
    pub questions: u64,
    /// Records heard by a unit.
    pub units: u64,
    /// Stations written, by code.
    written: [u64; 256],
    /// Sheets copied, by code.
    copied: [u64; 256],
    /// Those written, by version.
    copied_of: [u64; 2],
    codes: [u64; 256],
    /// By kind (0 for none of the thirteen) and code, of messages heard.
    answers: [[u64; 256]; 14],
    regimes: [u64; 3],
    verdicts: [u64; 7],
    pub sheets: Sheets,
    pub covers: Covers,
    panels: Panels,
    pub minutes: Minutes,
    splits: Splits,
    parts: Parts,
    pub keys: Keys,
    pub damaged_keys: DamagedKeys,
    pub separation: Separation,
}

impl Tally {
    pub fn new() -> Tally {
        Tally {
            inputs: 0,
            heard: 0,
            lists: 0,
            questions: 0,
            units: 0,
            written: [0; 256],
            copied: [0; 256],
            copied_of: [0; 2],
            codes: [0; 256],
            answers: [[0; 256]; 14],
            regimes: [0; 3],
            verdicts: [0; 7],
            sheets: Sheets::default(),
            covers: Covers::default(),
            panels: Panels::default(),
            minutes: Minutes::default(),
            splits: Splits::default(),
            parts: Parts::default(),
            keys: Keys::new(),
            damaged_keys: DamagedKeys::default(),
            separation: Separation::default(),
        }
    }

    pub fn code(&mut self, code: u8) {
        self.codes[usize::from(code)] += 1;
    }

    /// A record of a list, and the desk that is to hear it.
    pub fn hearing(&mut self, desk: &Desk, record: &[u8; RECORD]) {
        self.covers.heard(desk, record);
        self.parts.heard(desk, record);
        self.keys.heard(desk, record);
    }

    pub fn heard(&mut self, kind: u8, code: u8) {
        self.inputs += 1;
        self.heard += 1;
        self.code(code);
        let kind = if kind <= 13 { usize::from(kind) } else { 0 };
        self.answers[kind][usize::from(code)] += 1;
    }

    /// A record heard by a unit, beside the inputs.
    pub fn unit(&mut self, code: u8) {
        self.units += 1;
        self.code(code);
    }

    /// A station handed to the writer.
    pub fn written(&mut self, code: u8) {
        self.inputs += 1;
        self.code(code);
        self.written[usize::from(code)] += 1;
    }

    /// A sheet copied from one buffer into another.
    pub fn copied(&mut self, sheet: &[u8], code: u8) {
        self.inputs += 1;
        self.code(code);
        self.copied[usize::from(code)] += 1;
        if let ([_, _, _, _, version @ 1..=2, ..], 0) = (sheet, code) {
            self.copied_of[usize::from(version - 1)] += 1;
        }
    }

    /// A sheet read by the panel, its answer, and the desk's.
    pub fn panel(&mut self, sheet: &[u8], panel: u32, desk: u32) {
        self.inputs += 1;
        self.code(panel as u8);
        self.panels.read(sheet, panel, desk);
    }

    /// A set tried on a station as it stands, for a split group.
    pub fn splits(&mut self, station: &RawStation, set: Set) {
        self.inputs += 1;
        self.splits.tried(station, set);
    }

    pub fn movement(&mut self, [code, regime, ..]: [u8; 4]) {
        self.questions += 1;
        self.code(code);
        if code == 0 {
            self.regimes[usize::from(regime)] += 1;
        }
    }

    pub fn work(&mut self, code: u8) {
        self.questions += 1;
        self.code(code);
    }

    pub fn verdict(&mut self, [code, verdict]: [u8; 2]) {
        self.inputs += 1;
        self.code(code);
        self.verdicts[usize::from(verdict)] += 1;
    }

    /// Prints the counts; returns what never occurred.
    pub fn report(&self) -> Vec<String> {
        println!(
            "inputs {}: heard {}, lists {}, stations written {}, sheets copied {}, read by the panel {}, \
             sets tried for a split {}; beside them questions {}, records heard by a unit {}",
            self.inputs,
            self.heard,
            self.lists,
            self.written.iter().sum::<u64>(),
            self.copied.iter().sum::<u64>(),
            self.panels.sheets(),
            self.splits.sets(),
            self.questions,
            self.units
        );
        let mut counts: Vec<(String, u64)> = Vec::new();
        counts.extend(CODES.iter().map(|&code| (format!("code {code}"), self.codes[usize::from(code)])));
        let written = |code: &u8| (format!("station written, code {code}"), self.written[usize::from(*code)]);
        counts.extend(WRITTEN.iter().map(written));
        let copied = |code: &u8| (format!("sheet copied, code {code}"), self.copied[usize::from(*code)]);
        counts.extend(COPIED.iter().map(copied));
        let [old, new] = self.copied_of;
        counts.push(("sheet of version 1 copied, into version 2".to_string(), old));
        counts.push(("sheet of version 2 copied, byte for byte".to_string(), new));
        counts.extend((1..=13).map(|kind| (format!("kind {kind} accepted"), self.answers[kind][0])));
        counts.extend(REGIMES.iter().zip(self.regimes).map(|(regime, count)| (format!("regime {regime}"), count)));
        counts.extend((1..=6).map(|verdict| (format!("verdict {verdict}"), self.verdicts[verdict])));
        counts.extend(self.sheets.counts());
        counts.extend(self.covers.counts());
        counts.extend(self.panels.counts());
        counts.extend(self.minutes.counts());
        counts.extend(self.splits.counts());
        counts.extend(self.parts.counts());
        counts.extend(self.keys.counts());
        counts.extend(self.damaged_keys.counts());
        counts.extend(self.separation.counts());
        for (name, count) in &counts {
            println!("{name}: {count}");
        }
        println!("answers to messages heard, by kind (0: none of the thirteen) and code");
        println!("kind {}", HEARD.map(|code| format!("{code:>8}")).concat());
        for (kind, answers) in self.answers.iter().enumerate() {
            println!("{kind:>4} {}", HEARD.map(|code| format!("{:>8}", answers[usize::from(code)])).concat());
        }
        counts.into_iter().filter(|(_, count)| *count == 0).map(|(name, _)| name).collect()
    }
}
