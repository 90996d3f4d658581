//! Refused sheets, stations, records and journals in words: the number, the rule, and what breaks it here.

mod sheets;

pub use sheets::refused as sheet;

use crate::{kinds, words};
use reference::journal::{self, HEADER, MOST};
use reference::message::{Message, RECORD};
use reference::refusal::Refusal;
use reference::writer::RawStation;

fn with_here(text: String, here: Vec<String>) -> String {
    if here.is_empty() {
        text
    } else {
        format!("{text}. Here: {}", here.join("; "))
    }
}

/// A station that is not written into a buffer of that length: 7 or 8.
pub fn writing(station: &RawStation, buffer: usize, refusal: Refusal) -> String {
    let number = refusal.number();
    if refusal == Refusal::NoSheet {
        return format!("refused by {number}: a station that, as it stands, no sheet describes");
    }
    let here = format!("{}; the sheet needs {}", words::count(buffer, "byte"), station.sheet_length());
    with_here(format!("refused by {number}: a buffer shorter than the sheet"), vec![here])
}

/// A record that does not read: 11 or 13.
pub fn record(record: &[u8], refusal: Refusal) -> String {
    let number = refusal.number();
    match <&[u8; RECORD]>::try_from(record).map(Message::from_bytes) {
        Ok(message) if refusal == Refusal::Kind => {
            format!("does not read, {number}: kind {} is not 1 to 13", message.kind)
        }
        Ok(message) => format!("does not read, {number}: {}", words::list(&kinds::bad_fields(&message))),
        Err(_) => format!("does not read, {number}: not 32 bytes"),
    }
}

/// A refused journal: 30, with what breaks it.
pub fn journal(bytes: &[u8]) -> String {
    let rule = "journal under 16 bytes or under 16 + 32 x count, or wrong in mark, version, count or zeros";
    with_here(format!("refused by {}: {rule}", Refusal::Journal.number()), bad_journal(bytes))
}

fn bad_journal(bytes: &[u8]) -> Vec<String> {
    let Some([w, k, j, version_high, version_low, c0, c1, c2, c3, zeros @ ..]) = bytes.first_chunk::<HEADER>() else {
        return vec![words::count(bytes.len(), "byte")];
    };
    let version = u16::from_be_bytes([*version_high, *version_low]);
    let count = u32::from_be_bytes([*c0, *c1, *c2, *c3]);
    let mut bad = Vec::new();
    if [*w, *k, *j] != *b"WKJ" {
        bad.push("the first three bytes are not the letters WKJ".to_string());
    }
    if version != 1 {
        bad.push(format!("version {version}, not 1"));
    }
    if count > MOST {
        bad.push(format!("count {count} is above {MOST}"));
    } else if bytes.len() < journal::place(count) {
        bad.push(format!("{}; count {count} needs {}", words::count(bytes.len(), "byte"), journal::place(count)));
    }
    if *zeros != [0; 7] {
        bad.push("the last seven bytes of the header are not zeros".to_string());
    }
    bad
}

#[cfg(test)]
mod tests {
    use super::*;
    use reference::builders::station_k;
    use reference::sheet;
    use reference::writer::write;

    /// No command hands the writer such a station or such a buffer: only the words are tried here.
    #[test]
    fn words_of_the_writer() {
        let said = |station: &RawStation, length: usize| {
            let refusal = write(station, &mut vec![0; length]).expect_err("turned away");
            writing(station, length, refusal)
        };
        let no_sheet = "refused by 7: a station that, as it stands, no sheet describes";
        assert_eq!(said(&RawStation::empty(), 0), no_sheet);
        let k = RawStation::from(&sheet::read(&station_k().bytes()).expect("station K reads"));
        let short = "refused by 8: a buffer shorter than the sheet. Here: 49 bytes; the sheet needs 50";
        assert_eq!(said(&k, 49), short);
    }
}
