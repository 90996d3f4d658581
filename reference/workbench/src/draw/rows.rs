//! A journal heard record by record: for each one a row with what it says, its answer, and the zones that it leaves.

use crate::{reasons, refused, words};
use reference::desk::{Desk, ZONES};
use reference::journal;
use reference::message::{self, Content, Message};
use reference::refusal::Refusal;
use reference::replay::Answer;
use reference::station::Station;
use reference::zone::Zone;

pub struct Row<'s> {
    /// From 1.
    pub number: u32,
    /// None for a record that does not read.
    pub heard: Option<(Message, Content)>,
    pub answer: Answer,
    /// What the record says, or why it does not read.
    pub said: String,
    /// For a message that is refused: by what, and what that rests on.
    pub refused: Option<String>,
    /// The record's zone before it; none where it does not read or the zone is not of the station.
    pub before: Option<Zone<'s>>,
    /// All zones after it.
    pub after: [Zone<'s>; ZONES],
}

impl<'s> Row<'s> {
    /// The number of the record's zone, and that zone before and after the record.
    pub fn zone(&self) -> Option<(u8, Zone<'s>, Zone<'s>)> {
        let ((message, _), before) = (self.heard?, self.before?);
        Some((message.zone, before, *self.after.get(usize::from(message.zone))?))
    }
}

/// By the desk itself, fresh at first.
pub fn heard<'s>(station: &'s Station, journal: &[u8]) -> Result<Vec<Row<'s>>, Refusal> {
    let mut desk = Desk::fresh(station);
    let records = (1u32..).zip(journal::records(journal)?);
    Ok(records.map(|(number, record)| row(&mut desk, number, record)).collect())
}

fn row<'s>(desk: &mut Desk<'s>, number: u32, record: &[u8]) -> Row<'s> {
    let before = desk.clone();
    let answer = desk.hear_record(record);
    let read = message::read(record).and_then(|message| Ok((message, message.content()?)));
    let (said, refused, zone) = match &read {
        Ok((message, content)) => {
            let refused = answer.err().map(|refusal| {
                format!("refused by {}: {}", refusal.number(), reasons::reason(&before, message, content, refusal))
            });
            (words::said(message, content), refused, before.zone(message.zone).copied())
        }
        Err(refusal) => (refused::record(record, *refusal), None, None),
    };
    Row { number, heard: read.ok(), answer, said, refused, before: zone, after: *desk.zones() }
}
