//! Separation of zones: which zone an input belongs to (APART-1), and what a list gives a zone. APART-2: "Two lists ..
//! alike in the messages of one zone and their order and differing in the others at will, give that zone the same
//! codes, minutes and question answers."

use crate::desk::Desk;
use crate::message::{self, Message};
use crate::refusal::number;
use crate::replay::{movement_numbers, work_numbers};
use crate::set::members;
use crate::station::Station;

/// A zone of a station of so many zones.
#[derive(Clone, Copy, Debug, PartialEq, Eq)]
pub struct Place {
    pub zone: u8,
    pub zones: u8,
}

/// Code and minutes.
pub type Numbers = (u8, u32);

/// The zone that an input belongs to: it reads, and its zone byte is below Z. APART-1: "Records refused with 10, 11, 12
/// or 13 belong to no zone": no desk is needed to tell.
pub fn zone_of(record: &[u8], zones: u8) -> Option<u8> {
    let message = message::read(record).ok()?;
    Some(message.zone).filter(|&zone| zone < zones)
}

impl Place {
    pub fn has(self, record: &[u8]) -> bool {
        zone_of(record, self.zones) == Some(self.zone)
    }
}

/// The list with the zone's messages alone, accepted or not.
pub fn kept<R: AsRef<[u8]>>(list: &[R], place: Place) -> Vec<&[u8]> {
    list.iter().map(AsRef::as_ref).filter(|record| place.has(record)).collect()
}

/// The messages of the zone in a list.
pub fn messages<R: AsRef<[u8]>>(list: &[R], place: Place) -> Vec<Message> {
    kept(list, place).into_iter().filter_map(|record| message::read(record).ok()).collect()
}

/// APART-2: "Alike in the messages of one zone and their order".
pub fn alike<R: AsRef<[u8]>, S: AsRef<[u8]>>(one: &[R], other: &[S], place: Place) -> bool {
    messages(one, place) == messages(other, place)
}

/// A desk that has heard a list from its fresh state, however it keeps what it heard.
pub trait Heard {
    /// Of each record of the list.
    fn answers(&self) -> &[Numbers];
    /// Code, regime, lowest, count.
    fn movement(&self, zone: u8, train: u32) -> [u8; 4];
    /// Code, 1 yes or 0 no.
    fn work(&self, turnout: u8) -> [u8; 2];
}

/// What a list gave a zone.
#[derive(Clone, Debug, Default, PartialEq, Eq)]
pub struct Given {
    /// Of the zone's messages, in order.
    pub answers: Vec<Numbers>,
    /// With each train asked for, the answer to the movement question.
    pub movements: Vec<(u32, [u8; 4])>,
    /// With each turnout that the sheet puts into the zone, the answer to the work question.
    pub works: Vec<(u8, [u8; 2])>,
}

/// The answers of the zone, then its questions: movements for these trains, and work for all its turnouts.
pub fn given<R: AsRef<[u8]>>(
    heard: &impl Heard,
    list: &[R],
    station: &Station,
    zone: u8,
    trains: impl IntoIterator<Item = u32>,
) -> Given {
    let place = Place { zone, zones: station.zones };
    let of_zone = list.iter().zip(heard.answers()).filter(|(record, _)| place.has(record.as_ref()));
    Given {
        answers: of_zone.map(|(_, answer)| *answer).collect(),
        movements: trains.into_iter().map(|train| (train, heard.movement(zone, train))).collect(),
        works: members(station.of_zone(zone)).map(|turnout| (turnout, heard.work(turnout))).collect(),
    }
}

/// This implementation's desk, and what it answered.
pub struct HeardHere<'s> {
    pub desk: Desk<'s>,
    answers: Vec<Numbers>,
}

impl<'s> HeardHere<'s> {
    pub fn of<R: AsRef<[u8]>>(station: &'s Station, list: &[R]) -> Self {
        let mut desk = Desk::fresh(station);
        let mut hear = |record: &R| {
            let answer = desk.hear_record(record.as_ref());
            (number(&answer), answer.unwrap_or(0))
        };
        let answers = list.iter().map(&mut hear).collect();
        HeardHere { desk, answers }
    }
}

impl Heard for HeardHere<'_> {
    fn answers(&self) -> &[Numbers] {
        &self.answers
    }

    fn movement(&self, zone: u8, train: u32) -> [u8; 4] {
        movement_numbers(&self.desk.movement_question(zone, train))
    }

    fn work(&self, turnout: u8) -> [u8; 2] {
        work_numbers(&self.desk.work_question(turnout))
    }
}

#[cfg(test)]
mod tests;
