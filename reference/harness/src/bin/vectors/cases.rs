//! The format of a stored case, and the line expected of it. One method for each op.

use reference::message::{self, Message, RECORD};
use reference::refusal::number;
use reference::{builders, journal, panel, replay, sheet, writer};
use std::panic::Location;

/// Of 64 turnouts and 64 routes.
const LONGEST_SHEET: usize = 2_312;

#[derive(Default)]
pub struct Cases {
    pub count: usize,
    pub bytes: Vec<u8>,
    pub stdout: String,
    /// The number and the source line of each case.
    pub index: String,
}

/// 32-bit sum of bytes: s = s * 31 + b.
fn sum32(bytes: &[u8]) -> u32 {
    bytes.iter().fold(0u32, |sum, &byte| sum.wrapping_mul(31).wrapping_add(u32::from(byte)))
}

fn numbers(bytes: &[u8]) -> Vec<u32> {
    bytes.iter().map(|&byte| u32::from(byte)).collect()
}

impl Cases {
    /// Puts a case; `code` is the one the source states for it. The index names the line that states it.
    #[track_caller]
    fn put(&mut self, op: u8, [x, y]: [u32; 2], a: &[u8], b: &[u8], code: u8, answer: &[u32]) {
        self.count += 1;
        assert_eq!(answer[0], u32::from(code), "case {}", self.count);
        self.bytes.push(op);
        self.bytes.extend(x.to_be_bytes());
        self.bytes.extend(y.to_be_bytes());
        for part in [a, b] {
            let length = u16::try_from(part.len()).expect("a part of at most 32,816 bytes");
            assert!(length <= 32_816);
            self.bytes.extend(length.to_be_bytes());
        }
        self.bytes.extend(a);
        self.bytes.extend(b);
        let words: Vec<String> = answer.iter().map(u32::to_string).collect();
        self.stdout += &format!("{} {}\n", self.count, words.join(" "));
        let line = Location::caller();
        self.index += &format!("{} {}:{}\n", self.count, line.file(), line.line());
    }

    /// Op 1: a sheet read, with the code and index stated.
    #[track_caller]
    pub fn sheet(&mut self, code: u8, index: u8, bytes: &[u8]) {
        let read = sheet::read(bytes);
        let answer = read.map_or_else(|fault| [fault.number(), fault.index()], |_| [0, 0]);
        assert_eq!(answer[1], index, "case {}", self.count + 1);
        self.put(1, [0, 0], bytes, &[], code, &numbers(&answer));
    }

    /// Op 2: a replay that a refused sheet or journal ends.
    #[track_caller]
    pub fn refused_replay(&mut self, code: u8, sheet: &[u8], journal: &[u8]) {
        let answer = replay::replay(sheet, journal, &mut []);
        assert_ne!(answer, replay::BUFFER_TOO_SMALL);
        self.put(2, [0, 0], sheet, journal, code, &[u32::from(answer)]);
    }

    /// Op 2: a replay; `last` is the code stated for the last record, 0 where there is none.
    #[track_caller]
    pub fn replay(&mut self, last: u8, sheet: &[u8], journal: &[u8]) {
        let station = sheet::read(sheet).expect("a good sheet");
        let (answers, _) = replay::hear_all(&station, journal).expect("a good journal");
        assert_eq!(answers.last().map_or(0, number), last, "case {}", self.count + 1);
        let mut line = vec![0];
        line.extend(answers.iter().flat_map(|answer| [u32::from(number(answer)), answer.unwrap_or(0)]));
        self.put(2, [0, 0], sheet, journal, 0, &line);
    }

    /// Op 2 for a list of messages: the code stated for each.
    #[track_caller]
    pub fn codes(&mut self, codes: &[u8], sheet: &[u8], messages: &[Message]) {
        let station = sheet::read(sheet).expect("a good sheet");
        let journal = builders::journal(messages);
        let (answers, _) = replay::hear_all(&station, &journal).expect("a good journal");
        let heard: Vec<u8> = answers.iter().map(number).collect();
        assert_eq!(heard, codes, "case {}", self.count + 1);
        self.replay(codes.last().copied().unwrap_or(0), sheet, &journal);
    }

    /// Op 2 for a list of messages: `last` is the code of the last one, all before it are accepted.
    #[track_caller]
    pub fn list(&mut self, last: u8, sheet: &[u8], messages: &[Message]) {
        let mut codes = vec![0; messages.len()];
        if let Some(code) = codes.last_mut() {
            *code = last;
        }
        self.codes(&codes, sheet, messages);
    }

    /// Op 2 for a list of accepted messages: the minutes stated for each kind 11.
    #[track_caller]
    pub fn minutes(&mut self, minutes: &[u32], sheet: &[u8], messages: &[Message]) {
        self.state_minutes(minutes, sheet, messages);
        self.list(0, sheet, messages);
    }

    /// The minutes stated for each accepted kind 11 of the list that comes next.
    pub fn state_minutes(&self, minutes: &[u32], sheet: &[u8], messages: &[Message]) {
        let station = sheet::read(sheet).expect("a good sheet");
        let (answers, _) = replay::hear_all(&station, &builders::journal(messages)).expect("a good journal");
        let restored = messages.iter().zip(&answers).filter(|(message, _)| message.kind == 11);
        let returned: Vec<u32> = restored.filter_map(|(_, answer)| answer.ok()).collect();
        assert_eq!(returned, minutes, "case {}", self.count + 1);
    }

    /// Op 2 for messages refused one after another by the same code, on the desk that an accepted list left.
    #[track_caller]
    pub fn refused(&mut self, code: u8, sheet: &[u8], accepted: &[Message], refused: &[Message]) {
        let codes = [vec![0; accepted.len()], vec![code; refused.len()]].concat();
        self.codes(&codes, sheet, &[accepted, refused].concat());
    }

    /// Op 3: the movement question after a journal.
    /// Stated: code, regime, lowest, count.
    #[track_caller]
    pub fn movement(&mut self, stated: [u8; 4], sheet: &[u8], journal: &[u8], zone: u8, train: u32) {
        let answer = replay::movement(sheet, journal, zone, train);
        assert_eq!(answer, stated, "case {}", self.count + 1);
        self.put(3, [u32::from(zone), train], sheet, journal, stated[0], &numbers(&answer));
    }

    /// Op 4: the work question after a journal.
    /// Stated: code, 1 yes or 0 no.
    #[track_caller]
    pub fn work(&mut self, stated: [u8; 2], sheet: &[u8], journal: &[u8], turnout: u8) {
        let answer = replay::work(sheet, journal, turnout);
        assert_eq!(answer, stated, "case {}", self.count + 1);
        self.put(4, [u32::from(turnout), 0], sheet, journal, stated[0], &numbers(&answer));
    }

    /// Op 5: a record read and written again.
    #[track_caller]
    pub fn record(&mut self, code: u8, record: &[u8]) {
        let read = message::read(record);
        let mut line = vec![u32::from(number(&read))];
        if let Ok(message) = read {
            let mut buffer = [0; RECORD];
            message::write(&message, &mut buffer).expect("a message that was read");
            line.extend([u32::from(message.kind), u32::from(message.zone), message.time, message.id]);
            line.extend(numbers(&message.d));
            line.push(sum32(&buffer));
        }
        self.put(5, [0, 0], record, &[], code, &line);
    }

    /// Op 6: a message, good or not, written into a buffer.
    #[track_caller]
    pub fn write(&mut self, code: u8, message: &Message, buffer: &[u8]) {
        let mut written = buffer.to_vec();
        let answer = number(&message::write(message, &mut written));
        self.put(6, [0, 0], &message.to_bytes(), buffer, code, &[u32::from(answer), sum32(&written)]);
    }

    /// Op 7: a journal checked, its count.
    #[track_caller]
    pub fn journal(&mut self, code: u8, bytes: &[u8]) {
        let count = journal::check(bytes);
        self.put(7, [0, 0], bytes, &[], code, &[u32::from(number(&count)), count.unwrap_or(0)]);
    }

    /// Op 8: record n of a journal.
    #[track_caller]
    pub fn journal_record(&mut self, code: u8, bytes: &[u8], n: u32) {
        let record = journal::record(bytes, n);
        let part = record.unwrap_or(&[]);
        self.put(8, [n, 0], bytes, &[], code, &[u32::from(number(&record)), part.len() as u32, sum32(part)]);
    }

    /// Op 9: a record added to a journal.
    #[track_caller]
    pub fn journal_add(&mut self, code: u8, bytes: &[u8], record: &[u8]) {
        let mut lent = bytes.to_vec();
        let answer = number(&journal::add(&mut lent, record));
        self.put(9, [0, 0], bytes, record, code, &[u32::from(answer), sum32(&lent)]);
    }

    /// Op 10: a verdict; `verdict` is the one stated.
    #[track_caller]
    pub fn verdict(&mut self, code: u8, verdict: u8, [line, signal, flags]: [u8; 3]) {
        let answer = replay::verdict_numbers(line, signal, flags);
        assert_eq!(answer[1], verdict, "case {}", self.count + 1);
        let x = u32::from_be_bytes([0, line, signal, flags]);
        self.put(10, [x, 0], &[], &[], code, &numbers(&answer));
    }

    /// Op 11: a sheet copied into a buffer, with the code and index stated.
    #[track_caller]
    pub fn copied(&mut self, code: u8, index: u8, sheet: &[u8], buffer: &[u8]) {
        let mut written = buffer.to_vec();
        let answer = writer::copy_sheet(sheet, &mut written);
        assert_eq!(answer[1], index, "case {}", self.count + 1);
        assert!(code == 0 || written == buffer, "case {}", self.count + 1);
        let line = [u32::from(answer[0]), u32::from(answer[1]), sum32(&written)];
        self.put(11, [0, 0], sheet, buffer, code, &line);
    }

    /// Op 12: a sheet read for the cabin panel, with the code and index stated; then the station that the reading left
    /// written into a buffer of zeros, as long as the longest sheet: 7, and still zeros, where the sheet was refused.
    #[track_caller]
    pub fn panel(&mut self, code: u8, index: u8, sheet: &[u8]) {
        let answer = panel::read(sheet).map_or_else(|fault| [fault.number(), fault.index()], |_| [0, 0]);
        assert_eq!(answer[1], index, "case {}", self.count + 1);
        let mut written = [0; LONGEST_SHEET];
        let writing = number(&writer::write(&panel::station(sheet), &mut written));
        // What a copy of the sheet would be, in version 2; past it zeros.
        let mut copy = [0; LONGEST_SHEET];
        let stated = if code == 0 { writer::copy_sheet(sheet, &mut copy)[0] } else { 7 };
        assert_eq!((writing, written), (stated, copy), "case {}", self.count + 1);
        let line = [u32::from(answer[0]), u32::from(answer[1]), u32::from(writing), sum32(&written)];
        self.put(12, [0, 0], sheet, &[], code, &line);
    }
}
