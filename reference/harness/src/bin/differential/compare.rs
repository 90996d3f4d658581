//! The comparisons: each call made of the library and of this implementation, on the same bytes.
//! Those of records stand in `records`, those of journals in `journals`, those of units in `units`, those of the writer
//! in `writers`, those of the cabin panel in `panels`, those of minutes in `minutes`, those of split groups in
//! `splits`, those of two lists alike in a zone in `separation`, those of works on signals in `verdicts`.

use crate::lists::Talk;
use crate::rng::Rng;
use crate::stations;
use crate::tally::Tally;
use crate::{demand, Difference};
use harness::library;
use reference::desk::Desk;
use reference::drafts::{journal_header, journal_of};
use reference::message::{self, Message, RECORD};
use reference::refusal::number;
use reference::replay::{self, Answer, ANSWER};
use reference::sheet;
use std::collections::BTreeSet;
use std::fmt::Debug;

const NO_TRAIN: u32 = 0xFFFF_0001;

pub struct Comparison {
    pub rng: Rng,
    pub tally: Tally,
}

/// The files that a difference is replayed from.
#[derive(Clone, Copy)]
pub struct Files<'f> {
    pub sheet: &'f [u8],
    pub journal: &'f [u8],
}

impl Files<'_> {
    pub fn same<T: PartialEq + Debug>(
        self,
        call: impl FnOnce() -> String,
        library: T,
        reference: T,
    ) -> Result<(), Difference> {
        if library == reference {
            return Ok(());
        }
        Err(Difference {
            call: call(),
            answers: vec![("library", format!("{library:?}")), ("reference", format!("{reference:?}"))],
            sheet: self.sheet.to_vec(),
            journals: vec![self.journal.to_vec()],
        })
    }
}

/// The trains that the messages among these records name, and one that none does.
pub fn trains<R: AsRef<[u8]>>(records: &[R]) -> BTreeSet<u32> {
    let read = records.iter().filter_map(|record| message::read(record.as_ref()).ok());
    let of_trains = read.filter(|message| matches!(message.kind, 5..=9 | 13));
    of_trains.map(|message| message.id).chain([NO_TRAIN]).collect()
}

impl Comparison {
    pub fn new(seed: u64) -> Comparison {
        Comparison { rng: Rng::new(seed), tally: Tally::new() }
    }

    /// One station and one list, with all calls on them.
    pub fn round(&mut self) -> Result<(), Difference> {
        let builder = stations::sheet(&mut self.rng);
        let good = builder.bytes();
        self.sheet(&good)?;
        for _ in 0..6 {
            let damaged = stations::damaged(&mut self.rng, &builder);
            self.sheet(&damaged)?;
        }
        self.good_copies(&good)?;
        self.group_sheets()?;
        self.panel_sheets()?;
        self.stations()?;
        let station = sheet::read(&good).expect("the generator makes good sheets");

        let mut desk = Desk::fresh(&station);
        let talk = Talk::new(&mut self.rng, &station);
        let mut heard: Vec<([u8; RECORD], Answer)> = Vec::new();
        let length = if self.rng.chance(5) { self.rng.within(0..=19) } else { self.rng.within(20..=120) };
        for _ in 0..length {
            let record = talk.next(&mut self.rng, &desk);
            self.tally.hearing(&desk, &record);
            let answer = desk.hear_record(&record);
            self.tally.heard(record[0], number(&answer));
            heard.push((record, answer));
        }
        self.tally.lists += 1;
        self.tally.covers.left(&desk);
        self.tally.keys.left();
        let records: Vec<[u8; RECORD]> = heard.iter().map(|(record, _)| *record).collect();
        let mut journal = journal_of(&records);
        let tail = self.rng.pick(&[0, 0, 1, 31, 32, 50]);
        journal.extend(self.rng.bytes(tail));
        let files = Files { sheet: &good, journal: &journal };

        let answers: Vec<Answer> = heard.iter().map(|(_, answer)| *answer).collect();
        self.replay(files, &answers)?;
        let unit = self.unit(files, &heard, &desk)?;
        self.questions(files, &desk, &unit, &records)?;
        self.damaged_desks(files, &talk, &desk, &unit)?;
        let accepted = demand::check(&heard, &desk).map_err(|fault| Difference {
            call: format!("demand 3, {fault}"),
            answers: vec![("reference", "breaks it".into())],
            sheet: good.clone(),
            journals: vec![journal.clone()],
        })?;
        self.struck(&good, &accepted)?;
        self.records(&records)?;
        if self.rng.chance(50) {
            self.adds(&records)?;
        }
        self.journals(files)?;
        if self.tally.lists % 20 == 1 {
            self.full_journal()?;
        }
        for _ in 0..2 {
            let [line, signal, flags] = [self.rng.within(0..=4) as u8, self.rng.within(0..=6) as u8, self.rng.byte()];
            self.verdict(line, signal, flags)?;
        }
        Ok(())
    }

    pub fn sheet(&mut self, bytes: &[u8]) -> Result<(), Difference> {
        let read = sheet::read(bytes);
        let reference = replay::sheet_number(&read);
        self.tally.inputs += 1;
        self.tally.code(reference as u8);
        self.tally.sheets.read(bytes, &read);
        let files = Files { sheet: bytes, journal: &[] };
        let desk = library::sheet(bytes);
        files.same(|| "desk_sheet(sheet)".into(), desk, reference)?;
        self.panel(bytes, desk)?;
        self.copy(bytes)?;
        if reference != 0 && self.rng.chance(10) {
            // A refused sheet refuses the calls above it, whatever the journal.
            let code = reference as u8;
            let bad_journal = journal_header(self.rng.within(0..=1));
            let files = Files { sheet: bytes, journal: &bad_journal };
            let mut buffer = [0xA5; 7];
            files.same(
                || "desk_replay(sheet, journal, 7 bytes)".into(),
                library::replay(bytes, &bad_journal, &mut buffer),
                code,
            )?;
            files.same(|| "desk_replay, its buffer".into(), buffer, [0xA5; 7])?;
            let movement = u64::from(code) + (255 << 16);
            files.same(
                || "desk_movement(sheet, journal, 0, 1)".into(),
                library::movement(bytes, &bad_journal, 0, 1),
                movement,
            )?;
            files.same(
                || "desk_work(sheet, journal, 0)".into(),
                library::work(bytes, &bad_journal, 0),
                u32::from(code),
            )?;
            self.refused_unit(files, code)?;
        }
        Ok(())
    }

    /// Replay: the whole buffer, also beyond the answers, and buffers that are too small.
    fn replay(&mut self, files: Files, answers: &[Answer]) -> Result<(), Difference> {
        let mut expected: Vec<u8> = answers.iter().flat_map(replay::answer_bytes).collect();
        let needed = expected.len();
        let more = self.rng.pick(&[0, 0, 1, 4, 5, 13]);
        let filled = self.rng.bytes(needed + more);
        expected.extend(&filled[needed..]);
        let mut buffer = filled.clone();
        let code = library::replay(files.sheet, files.journal, &mut buffer);
        let call = || format!("desk_replay(sheet, journal, buffer of {} bytes)", needed + more);
        files.same(call, code, 0)?;
        for (n, (library, reference)) in buffer.chunks(ANSWER).zip(expected.chunks(ANSWER)).enumerate() {
            files.same(|| format!("{}: code and minutes of record {} (from 1)", call(), n + 1), library, reference)?;
        }
        if needed == 0 {
            return Ok(());
        }
        let small = if self.rng.chance(50) { needed - 1 } else { self.rng.index(needed) };
        let mut buffer = filled[..small].to_vec();
        let code = library::replay(files.sheet, files.journal, &mut buffer);
        let call = || format!("desk_replay(sheet, journal, buffer of {small} bytes)");
        files.same(call, code, replay::BUFFER_TOO_SMALL)?;
        files.same(|| format!("{}: the buffer", call()), &buffer[..], &filled[..small])?;
        self.tally.code(replay::BUFFER_TOO_SMALL);
        Ok(())
    }

    /// Both questions after the list, for every turnout, zone and train: of its journal, and of the unit that heard it.
    fn questions(
        &mut self,
        files: Files,
        desk: &Desk,
        unit: &[u8],
        records: &[[u8; RECORD]],
    ) -> Result<(), Difference> {
        for turnout in (0..=64).chain([255]) {
            let [code, yes] = replay::work_numbers(&desk.work_question(turnout));
            self.tally.work(code);
            let call = || format!("desk_work(sheet, journal, {turnout})");
            let packed = u32::from(code) + 256 * u32::from(yes);
            files.same(call, library::work(files.sheet, files.journal, turnout), packed)?;
            let call = || format!("unit_work(sheet, desk after the journal, {turnout})");
            files.same(call, library::unit_work(files.sheet, unit, turnout), packed)?;
        }
        let trains = trains(records);
        for zone in 0..=8 {
            for &train in &trains {
                let answer = replay::movement_numbers(&desk.movement_question(zone, train));
                self.tally.movement(answer);
                let packed = u64::from(u32::from_le_bytes(answer));
                let library = library::movement(files.sheet, files.journal, zone, train);
                let call = || format!("desk_movement(sheet, journal, {zone}, {train}) as code, regime, lowest, count");
                files.same(call, library.to_le_bytes(), packed.to_le_bytes())?;
                let library = library::unit_movement(files.sheet, unit, zone, train);
                let call = || format!("unit_movement(sheet, desk after the journal, {zone}, {train})");
                files.same(call, library.to_le_bytes(), packed.to_le_bytes())?;
            }
        }
        Ok(())
    }

    /// The list without its refused messages: the library accepts each, with the same minutes.
    fn struck(&mut self, sheet: &[u8], accepted: &[(Message, u32)]) -> Result<(), Difference> {
        let records: Vec<[u8; RECORD]> = accepted.iter().map(|(message, _)| message.to_bytes()).collect();
        let journal = journal_of(&records);
        let files = Files { sheet, journal: &journal };
        let mut buffer = vec![0xA5; ANSWER * records.len()];
        let code = library::replay(sheet, &journal, &mut buffer);
        files.same(|| "desk_replay(sheet, journal), refused messages struck".into(), code, 0)?;
        for (n, (library, (message, minutes))) in buffer.chunks(ANSWER).zip(accepted).enumerate() {
            self.tally.heard(message.kind, 0);
            let reference = replay::answer_bytes(&Ok(*minutes));
            files.same(
                || format!("desk_replay, refused messages struck: record {} (from 1)", n + 1),
                library,
                &reference[..],
            )?;
        }
        Ok(())
    }
}
