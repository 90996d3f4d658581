//! Comparisons of the unit: the list again, record by record over the 520 bytes of a desk, and damaged desks.

use crate::compare::{Comparison, Files};
use crate::damaged_keys::{change_keys, change_reserved};
use crate::keys::key_alone;
use crate::lists::Talk;
use crate::Difference;
use harness::library;
use reference::desk::{Desk, ZONES};
use reference::message::{Message, RECORD};
use reference::movement::Movement;
use reference::refusal::number;
use reference::replay::Answer;
use reference::station::Station;
use reference::unit::{self, DESK};

/// A unit's desk as the library has it, and as the reference has it.
struct Unit {
    by_library: Vec<u8>,
    by_reference: Vec<u8>,
}

impl Unit {
    fn with(bytes: Vec<u8>) -> Unit {
        Unit { by_library: bytes.clone(), by_reference: bytes }
    }
}

impl Comparison {
    /// The list heard record by record: the answers of the list, and the desk's bytes after each. Returns the last.
    pub fn unit(&mut self, files: Files, heard: &[([u8; RECORD], Answer)], desk: &Desk) -> Result<Vec<u8>, Difference> {
        let mut unit = self.fresh(files, DESK)?;
        if self.rng.chance(10) {
            let length = self.rng.weighted(&[(1, DESK - 1), (1, DESK + 1), (1, 0), (1, 2 * DESK)]);
            self.fresh(files, length)?;
        }
        for (n, (record, answer)) in heard.iter().enumerate() {
            if self.rng.chance(2) {
                let length = self.rng.pick(&[0, RECORD - 1]);
                self.apply(files, desk.station(), &mut unit, &record[..length])?;
            }
            let before = unit.by_library.clone();
            let (code, minutes) = self.apply(files, desk.station(), &mut unit, record)?;
            let call = || format!("unit_apply, record {} (from 1) after the ones before it", n + 1);
            files.same(call, (code, minutes), (number(answer), answer.ok()))?;
            if code == 0 && matches!(record[0], 5 | 6 | 13) {
                self.standing_question(files, desk.station(), &unit.by_library, record)?;
                key_alone(files, &before, &unit.by_library, record)?;
            }
        }
        files.same(|| "unit_apply, the desk after the list".into(), &unit.by_library[..], &unit::encode(desk)[..])?;
        Ok(unit.by_library)
    }

    /// The movement question, once a movement was asked, cleared or released by a key.
    fn standing_question(
        &mut self,
        files: Files,
        station: &Station,
        bytes: &[u8],
        record: &[u8; RECORD],
    ) -> Result<(), Difference> {
        let Message { zone, id, .. } = Message::from_bytes(record);
        let answer = unit::movement_at(station, bytes, zone, id);
        self.tally.movement(answer);
        let call = || format!("unit_movement(sheet, desk, {zone}, {id}) after record {record:?}: desk {bytes:?}");
        let library = library::unit_movement(files.sheet, bytes, zone, id);
        files.same(call, library.to_le_bytes(), u64::from(u32::from_le_bytes(answer)).to_le_bytes())
    }

    fn fresh(&mut self, files: Files, length: usize) -> Result<Unit, Difference> {
        let mut unit = Unit::with(self.rng.bytes(length));
        let library = library::unit_fresh(&mut unit.by_library);
        let reference = unit::fresh(&mut unit.by_reference);
        self.tally.code(reference);
        let call = || format!("unit_fresh({length} bytes)");
        files.same(call, (library, &unit.by_library), (reference, &unit.by_reference))?;
        Ok(unit)
    }

    /// A record heard by the library over its bytes and by the reference over its own: the code, all bytes, the
    /// minutes. Returns the code, and the minutes if it was accepted.
    fn apply(
        &mut self,
        files: Files,
        station: &Station,
        unit: &mut Unit,
        record: &[u8],
    ) -> Result<(u8, Option<u32>), Difference> {
        let before = unit.by_library.clone();
        let answer = library::unit_apply(files.sheet, &mut unit.by_library, record);
        let (code, minutes) = unit::apply_at(station, &mut unit.by_reference, record);
        self.tally.unit(code);
        let call = || format!("unit_apply(sheet, desk, record): desk {before:?}, record {record:?}");
        files.same(call, answer, u64::from(code) + (u64::from(minutes) << 8))?;
        files.same(call, &unit.by_library, &unit.by_reference)?;
        if code == 0 {
            self.minutes(files, station, &before, record, answer >> 8)?;
        } else {
            files.same(call, (&unit.by_library, minutes), (&before, 0))?;
        }
        Ok((code, (code == 0).then_some(minutes)))
    }

    /// Desks with changed bytes or of another length: 61 and nothing altered where they are no desk's, else what the
    /// desk in them answers.
    pub fn damaged_desks(&mut self, files: Files, talk: &Talk, desk: &Desk, bytes: &[u8]) -> Result<(), Difference> {
        for _ in 0..8 {
            let damaged = self.damaged_desk(bytes);
            self.tally.inputs += 1;
            self.tally.damaged_keys.tried(desk.station(), bytes, &damaged);
            let mut unit = Unit::with(damaged);
            for _ in 0..3 {
                let now = unit::decode(desk.station(), &unit.by_reference);
                let record = talk.next(&mut self.rng, now.as_ref().unwrap_or(desk));
                let (code, _) = self.apply(files, desk.station(), &mut unit, &record)?;
                let call = || format!("unit_apply, 61 for no desk: desk {:?}", unit.by_library);
                files.same(call, code == unit::NOT_A_DESK, now.is_none())?;
            }
            self.damaged_questions(files, desk.station(), &unit.by_library)?;
        }
        Ok(())
    }

    /// A refused sheet refuses the unit's calls, whatever the desk and the record.
    pub fn refused_unit(&mut self, files: Files, code: u8) -> Result<(), Difference> {
        let length = self.rng.pick(&[0, DESK]);
        let before = self.rng.bytes(length);
        let mut bytes = before.clone();
        let library = library::unit_apply(files.sheet, &mut bytes, &[0; 3]);
        files.same(|| "unit_apply(sheet, desk, record)".into(), (library, &bytes), (u64::from(code), &before))?;
        let library = library::unit_movement(files.sheet, &bytes, 0, 1);
        files.same(|| "unit_movement(sheet, desk, 0, 1)".into(), library, u64::from(code) + (255 << 16))?;
        let library = library::unit_work(files.sheet, &bytes, 0);
        files.same(|| "unit_work(sheet, desk, 0)".into(), library, u32::from(code))
    }

    fn damaged_questions(&mut self, files: Files, station: &Station, bytes: &[u8]) -> Result<(), Difference> {
        let turnout = self.rng.within(0..=65) as u8;
        let [code, yes] = unit::work_at(station, bytes, turnout);
        self.tally.work(code);
        let call = || format!("unit_work(sheet, desk, {turnout}): desk {bytes:?}");
        let library = library::unit_work(files.sheet, bytes, turnout);
        files.same(call, library, u32::from(code) + 256 * u32::from(yes))?;
        for zone in 0..=8 {
            let train = standing_train(station, bytes, zone).unwrap_or(1);
            let answer = unit::movement_at(station, bytes, zone, train);
            self.tally.movement(answer);
            let call = || format!("unit_movement(sheet, desk, {zone}, {train}): desk {bytes:?}");
            let library = library::unit_movement(files.sheet, bytes, zone, train);
            files.same(call, library, u64::from(u32::from_le_bytes(answer)))?;
        }
        Ok(())
    }

    fn damaged_desk(&mut self, desk: &[u8]) -> Vec<u8> {
        let mut bytes = desk.to_vec();
        let (zone, busy) = (zone_at(self.rng.index(ZONES)), self.busy_zone(desk));
        match self.rng.within(0..=20) {
            0 => bytes[self.rng.index(DESK)] = self.rng.byte(),
            1 => {
                for _ in 0..self.rng.within(2..=5) {
                    bytes[self.rng.index(DESK)] = self.rng.byte();
                }
            }
            2 => bytes.truncate(self.rng.index(DESK)),
            3 => {
                let more = self.rng.pick(&[1, 8, 64, DESK]);
                bytes.extend(self.rng.bytes(more));
            }
            4 => bytes[self.rng.index(8)] ^= 1 << self.rng.index(8),
            // A field of a few values: stage, manner, whether a movement stands, route, order, recorder.
            5 | 6 => bytes[busy + self.rng.pick(&[0, 1, 26, 27, 28, 49])] = self.rng.pick(&[0, 1, 2, 3, 64, 255]),
            // A form, a train, a set or a time; where the zone has none of it, it is no desk.
            7..=9 => {
                for _ in 0..self.rng.within(1..=3) {
                    let field = self.rng.pick(&[5, 12, 13, 17, 24, 25, 32, 39, 40, 47, 48, 52]);
                    bytes[busy + field] ^= 1 << self.rng.index(8);
                }
            }
            10..=12 => self.agree_later(&mut bytes[busy..busy + 64]),
            13..=15 => change_keys(&mut self.rng, &mut bytes[busy..busy + 64]),
            16 => change_keys(&mut self.rng, &mut bytes[zone..zone + 64]),
            17 => change_reserved(&mut self.rng, &mut bytes[busy..busy + 64]),
            // A zone put in place of another.
            _ => bytes.copy_within(busy..busy + 64, zone),
        }
        bytes
    }

    /// The agreement put after the zone's last time; where no work is agreed, it is no desk.
    fn agree_later(&mut self, zone: &mut [u8]) {
        let last = zone[50..54].iter().fold(0, |time, &byte| time << 8 | u32::from(byte));
        let agreement = last.saturating_add(self.rng.pick(&[1, 29, 30, 31, 60, 90, 1000, u32::MAX]));
        zone[14..18].copy_from_slice(&agreement.to_be_bytes());
    }

    /// Where a zone starts that has work or a movement, if one has.
    fn busy_zone(&mut self, desk: &[u8]) -> usize {
        let busy: Vec<usize> = (0..ZONES).map(zone_at).filter(|&at| desk[at] != 0 || desk[at + 26] != 0).collect();
        if busy.is_empty() {
            return zone_at(self.rng.index(ZONES));
        }
        self.rng.pick(&busy)
    }
}

/// Where zone n starts in the bytes of a desk.
fn zone_at(n: usize) -> usize {
    8 + 64 * n
}

/// The train that stands in a zone of the desk in the bytes.
fn standing_train(station: &Station, bytes: &[u8], zone: u8) -> Option<u32> {
    match unit::decode(station, bytes)?.zone(zone)?.movement {
        Movement::Standing(train) => Some(train.id),
        Movement::None => None,
    }
}
