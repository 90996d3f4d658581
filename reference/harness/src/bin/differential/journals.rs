//! Comparisons of journals: check, count, record n, add; good, damaged and full ones.

use crate::compare::{Comparison, Files};
use crate::Difference;
use harness::library;
use reference::builders::recorder;
use reference::drafts::{journal_header, journal_of};
use reference::message::RECORD;
use reference::refusal::number;
use reference::{journal, replay};

impl Comparison {
    /// A journal grown record by record, in bytes that may not hold them all.
    pub fn adds(&mut self, records: &[[u8; RECORD]]) -> Result<(), Difference> {
        let room = self.rng.index(RECORD * records.len() + 1);
        let mut by_reference = journal_header(0).to_vec();
        by_reference.extend(self.rng.bytes(room));
        let mut by_library = by_reference.clone();
        for record in records {
            let length = self.rng.weighted(&[(30, RECORD), (1, RECORD - 1)]);
            self.add(&mut by_library, &mut by_reference, &record[..length])?;
        }
        Ok(())
    }

    fn add(&mut self, by_library: &mut [u8], by_reference: &mut [u8], record: &[u8]) -> Result<(), Difference> {
        let before = by_reference.to_vec();
        let reference = number(&journal::add(by_reference, record));
        let library = library::journal_add(by_library, record);
        self.tally.inputs += 1;
        self.tally.code(reference);
        let files = Files { sheet: &[], journal: &before };
        files.same(|| format!("desk_journal_add(journal, {record:?})"), library, reference)?;
        let place = by_library.iter().zip(by_reference.iter()).position(|(library, reference)| library != reference);
        let of = |bytes: &[u8]| place.map(|at| (at, bytes[at]));
        files.same(
            || format!("desk_journal_add(journal, {record:?}): place and byte"),
            of(by_library),
            of(by_reference),
        )
    }

    /// Check, count, record n and add, on the list's journal and on damaged ones.
    pub fn journals(&mut self, files: Files) -> Result<(), Difference> {
        self.journal(files.journal)?;
        for _ in 0..3 {
            let damaged = self.damaged_journal(files.journal);
            self.journal(&damaged)?;
            if let Err(refusal) = journal::check(&damaged) {
                let files = Files { sheet: files.sheet, journal: &damaged };
                let code = refusal.number();
                let mut buffer = [0x5A; 9];
                let library = library::replay(files.sheet, &damaged, &mut buffer);
                files.same(|| "desk_replay(sheet, journal, 9 bytes)".into(), (library, buffer), (code, [0x5A; 9]))?;
                let movement = u64::from(code) + (255 << 16);
                files.same(
                    || "desk_movement(sheet, journal, 9, 1)".into(),
                    library::movement(files.sheet, &damaged, 9, 1),
                    movement,
                )?;
                files.same(
                    || "desk_work(sheet, journal, 255)".into(),
                    library::work(files.sheet, &damaged, 255),
                    u32::from(code),
                )?;
            }
        }
        Ok(())
    }

    fn journal(&mut self, journal: &[u8]) -> Result<(), Difference> {
        let files = Files { sheet: &[], journal };
        let check = journal::check(journal);
        self.tally.inputs += 2;
        self.tally.code(number(&check));
        files.same(|| "desk_journal_check(journal)".into(), library::journal_check(journal), number(&check))?;
        files.same(|| "desk_journal_count(journal)".into(), library::journal_count(journal), check.unwrap_or(0))?;
        let count = check.unwrap_or(20);
        for n in [self.rng.within(0..=count), count, self.rng.within(0..=2000), self.rng.next() as u32] {
            let (code, place) = replay::journal_record(journal, n);
            self.tally.inputs += 1;
            self.tally.code(code);
            files.same(
                || format!("desk_journal_record(journal, {n})"),
                library::journal_record(journal, n),
                u64::from(code) + 256 * u64::from(place),
            )?;
        }
        let (mut by_library, mut by_reference) = (journal.to_vec(), journal.to_vec());
        let record = recorder(self.rng.weighted(&[(5, 0), (5, 1), (1, 2)])).in_zone(self.rng.byte()).to_bytes();
        self.add(&mut by_library, &mut by_reference, &record)
    }

    fn damaged_journal(&mut self, journal: &[u8]) -> Vec<u8> {
        let mut bytes = journal.to_vec();
        let count = journal::check(journal).unwrap_or(0);
        match self.rng.within(0..=6) {
            0 => bytes.truncate(self.rng.index(bytes.len())),
            1 => bytes.truncate(self.rng.index(18)),
            2 => bytes.truncate(journal::place(count) - self.rng.index(2)),
            3 => bytes[self.rng.index(5)] ^= 1 << self.rng.index(8),
            4 => bytes[9 + self.rng.index(7)] = self.rng.byte(),
            5 => bytes[5 + self.rng.index(4)] = self.rng.byte(),
            _ => bytes[8] = self.rng.within(0..=count) as u8,
        }
        bytes
    }

    /// K-11: "Record 1,024 fits, the next: 31."
    pub fn full_journal(&mut self) -> Result<(), Difference> {
        let count = self.rng.pick(&[1022, 1023, 1024]);
        let records = vec![recorder(1).to_bytes(); count];
        let mut by_reference = journal_of(&records);
        by_reference.extend(self.rng.bytes(96));
        let mut by_library = by_reference.clone();
        for _ in 0..3 {
            let record = recorder(0).at(self.rng.next() as u32).to_bytes();
            self.add(&mut by_library, &mut by_reference, &record)?;
        }
        by_reference[5..9].copy_from_slice(&1025u32.to_be_bytes());
        self.journal(&by_reference)
    }
}
