//! The text of journals: one record a line, `kind: time N, zone N, ..`; a record that does not read as `bytes: ..`.

use crate::kinds::{kind, word, Field, KINDS};
use crate::lines::{lines, Line, TextError};
use crate::{refused, words};
use reference::drafts::journal_of;
use reference::journal;
use reference::message::{Message, RECORD};
use reference::refusal::Refusal;

const BYTES: &str = "bytes";

pub fn show(journal: &[u8]) -> Result<String, Refusal> {
    let mut text = format!("# Journal, {}.\n", words::count(journal::check(journal)? as usize, "record"));
    for (n, record) in (1..).zip(journal::records(journal)?) {
        text += &numbered_line(n, record);
    }
    let rest = journal.len() - journal::place(journal::check(journal)?);
    if rest > 0 {
        text += &format!("# {} after the last record, not looked at.\n", words::count(rest, "byte"));
    }
    Ok(text)
}

/// The record with its number, from 1, as a comment.
fn numbered_line(n: u32, record: &[u8]) -> String {
    match reference::message::read(record) {
        Ok(message) => format!("{}  # {n}\n", line(&message)),
        Err(refusal) => format!("{}  # {n}; {}\n", bytes_line(record), refused::record(record, refusal)),
    }
}

/// The line of a message that reads.
pub fn line(message: &Message) -> String {
    let Some(kind) = kind(message.kind) else {
        return bytes_line(&message.to_bytes());
    };
    let mut text = format!("{}: time {}, zone {}", kind.name, message.time, message.zone);
    for field in kind.fields {
        let shown = match *field {
            Field::Id(name) => format!("{name} {}", message.id),
            Field::SetA(name) => format!("{name} {}", words::set(message.a)),
            Field::SetB(name) => format!("{name} {}", words::set(message.b)),
            Field::Number(n, name, ..) => format!("{name} {}", message.d[n]),
            Field::Choice(n, table) => word(table, message.d[n]).unwrap_or("").to_string(),
            Field::Flag(n, ..) if message.d[n] == 0 => continue,
            Field::Flag(_, words, _) => words.to_string(),
        };
        text += &format!(", {shown}");
    }
    text
}

/// The 32 bytes in hex, in the groups of the fields: kind, zone, time, id, a, b, details.
fn bytes_line(record: &[u8]) -> String {
    const STARTS: [usize; 6] = [1, 2, 6, 10, 18, 26];
    let mut text = format!("{BYTES}: ");
    for (n, byte) in record.iter().enumerate() {
        if STARTS.contains(&n) {
            text.push(' ');
        }
        text += &format!("{byte:02x}");
    }
    text
}

/// The journal that the text describes.
pub fn read(text: &str) -> Result<Vec<u8>, TextError> {
    let mut records = Vec::new();
    for line in lines(text) {
        let mut line = line?;
        if records.len() == journal::MOST as usize {
            return Err(TextError {
                line: line.number,
                expected: format!("the end of the text after {} records", journal::MOST),
                found: "a further record".to_string(),
            });
        }
        records.push(if line.head == BYTES { read_bytes(&mut line)? } else { read_message(&mut line)?.to_bytes() });
        line.end()?;
    }
    Ok(journal_of(&records))
}

fn read_message(line: &mut Line) -> Result<Message, TextError> {
    let named = (1u8..).zip(&KINDS).find(|(_, kind)| kind.name == line.head);
    let Some((number, kind)) = named else {
        let names: Vec<&str> = KINDS.iter().map(|kind| kind.name).chain([BYTES]).collect();
        return Err(line.other_head(&format!("a kind ({}) and a colon", names.join(", "))));
    };
    let time = line.number("time", 0, u32::MAX)?;
    let zone = line.byte("zone")?;
    let mut message = Message { kind: number, zone, time, id: 0, a: 0, b: 0, d: [0; 6] };
    for field in kind.fields {
        match *field {
            Field::Id(name) => message.id = line.number(name, 1, u32::MAX)?,
            Field::SetA(name) => message.a = line.set(name)?,
            Field::SetB(name) => message.b = line.set(name)?,
            Field::Number(n, name, low, high) => {
                message.d[n] = line.number(name, u32::from(low), u32::from(high))? as u8;
            }
            Field::Choice(n, table) => message.d[n] = line.choice(table)?,
            Field::Flag(n, words, older) => message.d[n] = u8::from(line.flag(words, older)?),
        }
    }
    Ok(message)
}

/// The bytes of a record that does not read; one that reads has its line by name.
fn read_bytes(line: &mut Line) -> Result<[u8; RECORD], TextError> {
    let record = line.take("32 bytes in hex", hex)?;
    match reference::message::read(&record) {
        Ok(message) => Err(TextError {
            line: line.number,
            expected: format!("the record by its kind: '{}'", self::line(&message)),
            found: "the bytes of a record that reads".to_string(),
        }),
        Err(_) => Ok(record),
    }
}

fn hex(text: &str) -> Option<[u8; RECORD]> {
    let digits: Option<Vec<u8>> = text
        .chars()
        .filter(|character| *character != ' ')
        .map(|character| character.to_digit(16).map(|digit| digit as u8))
        .collect();
    let digits = digits.filter(|digits| digits.len() == 2 * RECORD)?;
    let bytes: Vec<u8> = digits.chunks_exact(2).map(|pair| pair[0] << 4 | pair[1]).collect();
    bytes.try_into().ok()
}
