//! The message record of 32 bytes: its fields, reading, writing. RECORD-1: "Message record, 32 bytes".

use crate::clearance::{Channel, Clamp, Clearance, Position};
use crate::keys::Key;
use crate::refusal::{refuse, Refusal};
use crate::set::Set;

pub const RECORD: usize = 32;
const RECORDER: u8 = 12;

/// The fields as they stand, under any kind and with any values.
#[derive(Clone, Copy, Debug, PartialEq, Eq)]
pub struct Message {
    pub kind: u8,
    pub zone: u8,
    pub time: u32,
    pub id: u32,
    pub a: Set,
    pub b: Set,
    pub d: [u8; 6],
}

/// How work was asked for.
#[derive(Clone, Copy, Debug, PartialEq, Eq)]
pub enum Form {
    M45,
    RecordedVerbal,
    /// Of a stored desk alone: no message has it.
    Other(u8),
}

impl Form {
    /// RECORD-3, kind 1: "d0 1 form M.45, 2 recorded verbal".
    pub fn of(number: u8) -> Form {
        match number {
            1 => Form::M45,
            2 => Form::RecordedVerbal,
            other => Form::Other(other),
        }
    }

    pub fn number(self) -> u8 {
        match self {
            Form::M45 => 1,
            Form::RecordedVerbal => 2,
            Form::Other(other) => other,
        }
    }
}

#[derive(Clone, Copy, Debug, PartialEq, Eq)]
pub enum Aspect {
    Clear = 1,
    Danger = 2,
}

/// What a message of each of the thirteen kinds says, beside its zone, time and id.
#[derive(Clone, Copy, Debug, PartialEq, Eq)]
pub enum Content {
    WorkAsked { turnouts: Set, form: Form },
    Agreed,
    Withdrawn,
    DetectionOff { lost: Set, portable: Set },
    MovementAsked { route: u8 },
    Cleared(Clearance),
    Ordered(Aspect),
    Passed,
    Cancelled,
    PartRestored { turnouts: Set },
    AllRestored,
    Recorder { working: bool },
    KeyUsed { turnout: u8, key: Key },
}

impl Message {
    /// RECORD-1: "Kind (1 byte), zone (1), time in seconds (4), id (4), sets a and b (8 each), details d0 to d5".
    /// Takes the fields without any check.
    pub fn from_bytes(record: &[u8; RECORD]) -> Message {
        let number = |from: usize, to: usize| -> u64 {
            record[from..to].iter().fold(0, |number, &byte| number << 8 | u64::from(byte))
        };
        let [.., d0, d1, d2, d3, d4, d5] = *record;
        Message {
            kind: record[0],
            zone: record[1],
            time: number(2, 6) as u32,
            id: number(6, 10) as u32,
            a: number(10, 18),
            b: number(18, 26),
            d: [d0, d1, d2, d3, d4, d5],
        }
    }

    /// The 32 bytes of the fields, without any check.
    pub fn to_bytes(&self) -> [u8; RECORD] {
        let mut record = [0; RECORD];
        record[0] = self.kind;
        record[1] = self.zone;
        record[2..6].copy_from_slice(&self.time.to_be_bytes());
        record[6..10].copy_from_slice(&self.id.to_be_bytes());
        record[10..18].copy_from_slice(&self.a.to_be_bytes());
        record[18..26].copy_from_slice(&self.b.to_be_bytes());
        record[26..].copy_from_slice(&self.d);
        record
    }

    /// The rules of kind (11), then of fields (13).
    pub fn content(&self) -> Result<Content, Refusal> {
        refuse(!(1..=13).contains(&self.kind), Refusal::Kind)?;
        refuse(!self.id_fits(), Refusal::Field)?;
        self.fields().ok_or(Refusal::Field)
    }

    /// RECORD-2: "Id is a form number (kinds 1-4, 10, 11) or a train (5-9), not 0; for 12 it is 0." Kind 13: "id is the
    /// train".
    fn id_fits(&self) -> bool {
        (self.id == 0) == (self.kind == RECORDER)
    }

    /// RECORD-3, the table of kinds; "Fields not named below are 0."
    fn fields(&self) -> Option<Content> {
        Some(match (self.kind, self.a, self.b, self.d) {
            (1, turnouts, 0, [1, 0, 0, 0, 0, 0]) => Content::WorkAsked { turnouts, form: Form::M45 },
            (1, turnouts, 0, [2, 0, 0, 0, 0, 0]) => Content::WorkAsked { turnouts, form: Form::RecordedVerbal },
            (2, 0, 0, [0, 0, 0, 0, 0, 0]) => Content::Agreed,
            (3, 0, 0, [0, 0, 0, 0, 0, 0]) => Content::Withdrawn,
            (4, lost, portable, [0, 0, 0, 0, 0, 0]) => Content::DetectionOff { lost, portable },
            (5, 0, 0, [route @ 0..=63, 0, 0, 0, 0, 0]) => Content::MovementAsked { route },
            (6, 0, 0, [turnout @ 0..=63, declaration @ 1..=9, d2, d3, d4, d5]) => {
                let position = match d2 {
                    0 => Position::Normal,
                    1 => Position::Reverse,
                    _ => return None,
                };
                let clamp = match d3 {
                    0 => Clamp::None,
                    1 => Clamp::Clamp,
                    2 => Clamp::Attended,
                    _ => return None,
                };
                let channel = match d4 {
                    1 => Channel::Voice,
                    2 => Channel::Written,
                    _ => return None,
                };
                // RECORD-3: "In a clearance d5 becomes a field of 0 or 1"; FIT-4: "a d5 above 1 gets 13".
                let covers_group = match d5 {
                    0 => false,
                    1 => true,
                    _ => return None,
                };
                Content::Cleared(Clearance { turnout, declaration, position, clamp, channel, covers_group })
            }
            (7, 0, 0, [1, 0, 0, 0, 0, 0]) => Content::Ordered(Aspect::Clear),
            (7, 0, 0, [2, 0, 0, 0, 0, 0]) => Content::Ordered(Aspect::Danger),
            (8, 0, 0, [0, 0, 0, 0, 0, 0]) => Content::Passed,
            (9, 0, 0, [0, 0, 0, 0, 0, 0]) => Content::Cancelled,
            (10, turnouts, 0, [0, 0, 0, 0, 0, 0]) => Content::PartRestored { turnouts },
            (11, 0, 0, [0, 0, 0, 0, 0, 0]) => Content::AllRestored,
            (RECORDER, 0, 0, [0, 0, 0, 0, 0, 0]) => Content::Recorder { working: false },
            (RECORDER, 0, 0, [1, 0, 0, 0, 0, 0]) => Content::Recorder { working: true },
            // RECORD-3: "d0 the turnout (0 to 63), d1 is 1 for Tcl and 2 for Es".
            (13, 0, 0, [turnout @ 0..=63, d1, 0, 0, 0, 0]) => Content::KeyUsed { turnout, key: Key::of(d1)? },
            _ => return None,
        })
    }
}

/// RECORD-4, HEAR-1: "A record is first read into a message, or refused (10, 11, 13, in that order)".
pub fn read(record: &[u8]) -> Result<Message, Refusal> {
    let record: &[u8; RECORD] = record.try_into().map_err(|_| Refusal::RecordLength)?;
    let message = Message::from_bytes(record);
    message.content()?;
    Ok(message)
}

/// RECORD-5: "writing it is refused by 13, a buffer that is not 32 bytes by 10"; 10 comes first.
pub fn write(message: &Message, buffer: &mut [u8]) -> Result<(), Refusal> {
    let buffer: &mut [u8; RECORD] = buffer.try_into().map_err(|_| Refusal::RecordLength)?;
    message.content().map_err(|_| Refusal::Field)?;
    *buffer = message.to_bytes();
    Ok(())
}

#[cfg(test)]
mod tests {
    use super::*;
    use crate::builders::work_asked;

    #[test]
    fn refusals_of_records_and_writing() {
        let good = work_asked(7, 1, &[0]).to_bytes();
        assert_eq!(read(&good), Ok(work_asked(7, 1, &[0])));
        assert_eq!(read(&good[..31]), Err(Refusal::RecordLength));
        let mut bad = good;
        bad[0] = 14;
        assert_eq!(read(&bad), Err(Refusal::Kind));
        let mut buffer = [9; 32];
        assert_eq!(write(&Message::from_bytes(&bad), &mut buffer), Err(Refusal::Field));
        assert_eq!(write(&Message::from_bytes(&bad), &mut buffer[..31]), Err(Refusal::RecordLength));
        assert_eq!(buffer, [9; 32]);
        assert_eq!(write(&work_asked(7, 1, &[0]), &mut buffer), Ok(()));
        assert_eq!(buffer, good);
    }
}
