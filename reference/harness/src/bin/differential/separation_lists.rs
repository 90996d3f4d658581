//! Pairs of random lists alike in the messages of one zone, on stations of two zones and more. APART-2: "differing in
//! the others at will".

use crate::lists::Talk;
use crate::rng::Rng;
use crate::stations;
use reference::builders;
use reference::desk::Desk;
use reference::drafts::Sheet;
use reference::message::{Message, RECORD};
use reference::separation::Place;
use reference::sheet;
use reference::station::Station;
use std::collections::VecDeque;

/// Records of any length: a unit hears those too that are not 32 bytes.
pub type List = Vec<Vec<u8>>;

/// Two lists, the zone that they are alike in, and the sheet.
pub struct Pair {
    pub sheet: Vec<u8>,
    pub station: Station,
    pub zone: u8,
    pub lists: [List; 2],
}

/// What comes between the zone's messages. The last four are of no zone: a message of the zone with a wrong length
/// (10), kind (11), zone (12) or field (13).
#[derive(Clone, Copy)]
enum Sort {
    /// The next message of another zone, from what its desk holds.
    Talk,
    /// A message of the zone, for another zone: the same form or train, the same turnouts.
    Copy,
    /// Another zone's recorder, mostly out, much later at times.
    Recorder,
    Length,
    Kind,
    NoZone,
    Field,
}

const SORTS: [(u32, Sort); 7] = [
    (62, Sort::Talk),
    (8, Sort::Copy),
    (12, Sort::Recorder),
    (4, Sort::Length),
    (4, Sort::Kind),
    (5, Sort::NoZone),
    (5, Sort::Field),
];

impl Pair {
    pub fn random(rng: &mut Rng) -> Pair {
        let sheet = several_zones(rng).bytes();
        let station = sheet::read(&sheet).expect("the generator makes good sheets");
        let zone = some_zone(rng, &station);
        let lists = Maker::new(rng, &station, zone).lists(rng);
        Pair { sheet, station, zone, lists }
    }
}

/// A good sheet of two zones at least; mostly each has a few turnouts and routes.
fn several_zones(rng: &mut Rng) -> Sheet {
    let (turnouts, routes, zones) = match rng.within(0..=39) {
        0..=27 => (rng.within(4..=10), rng.within(3..=8), 2),
        28..=38 => (rng.within(8..=20), rng.within(6..=16), rng.within(2..=5)),
        _ => (64, 64, 8),
    };
    stations::sized(rng, turnouts, routes, zones)
}

/// Mostly one with turnouts.
fn some_zone(rng: &mut Rng, station: &Station) -> u8 {
    if rng.chance(5) {
        return rng.index(usize::from(station.zones)) as u8;
    }
    station.turnouts[rng.index(station.turnouts.len())].zone
}

/// The zone's messages, and what it takes to strew others between them.
struct Maker<'s> {
    station: &'s Station,
    place: Place,
    messages: Vec<[u8; RECORD]>,
    /// All other zones, and one or two of them that talk most, of the same forms and trains.
    others: Vec<u8>,
    talk: Talk,
}

impl<'s> Maker<'s> {
    fn new(rng: &mut Rng, station: &'s Station, zone: u8) -> Maker<'s> {
        let place = Place { zone, zones: station.zones };
        let talk = Talk::new(rng, station);
        let messages = own(rng, station, place, &talk.in_zones(vec![zone]));
        let others: Vec<u8> = (0..station.zones).filter(|&other| other != zone).collect();
        let busy = (0..rng.within(1..=2)).map(|_| rng.pick(&others)).collect();
        Maker { station, place, messages, others, talk: talk.in_zones(busy) }
    }

    /// The second has wholly other records between the zone's messages, or the first's again, some of them left out,
    /// changed or shuffled.
    fn lists(&self, rng: &mut Rng) -> [List; 2] {
        let one = self.strewn(rng, VecDeque::new());
        let again = if rng.chance(50) { self.changed(rng, &one) } else { VecDeque::new() };
        let other = self.strewn(rng, again);
        [one, other]
    }

    /// The zone's messages in their order, and between them records that are not the zone's: those to come again, and
    /// new ones for the desk as it then stands.
    fn strewn(&self, rng: &mut Rng, mut again: VecDeque<Vec<u8>>) -> List {
        let mut desk = Desk::fresh(self.station);
        let mut list = List::new();
        let most = rng.pick(&[1, 2, 3]);
        // At times many before the zone's first message.
        let first = rng.pick(&[0, 0, 8]);
        for n in 0..=self.messages.len() {
            let count = rng.within(0..=most) + if n == 0 { first } else { 0 };
            for _ in 0..count {
                let came = if rng.chance(80) { again.pop_front() } else { None };
                let record = came.unwrap_or_else(|| self.foreign(rng, &desk));
                // The answer does not matter here: the desk is kept to draw the next record for.
                let _ = desk.hear_record(&record);
                list.push(record);
            }
            if let Some(message) = self.messages.get(n) {
                let _ = desk.hear_record(message);
                list.push(message.to_vec());
            }
        }
        list
    }

    /// The records of a list that are not the zone's, some left out, changed, or put elsewhere.
    fn changed(&self, rng: &mut Rng, list: &List) -> VecDeque<Vec<u8>> {
        let mut records: Vec<Vec<u8>> = list.iter().filter(|record| !self.place.has(record)).cloned().collect();
        records.retain(|_| rng.chance(80));
        for record in &mut records {
            if rng.chance(15) && !record.is_empty() {
                let at = rng.index(record.len());
                record[at] = rng.pick(&[0, 1, 2, 255]);
            }
        }
        for _ in 0..rng.pick(&[0, 0, 1, records.len()]).min(records.len()) {
            let (from, to) = (rng.index(records.len()), rng.index(records.len()));
            records.swap(from, to);
        }
        records.retain(|record| !self.place.has(record));
        records.into()
    }

    /// A record that is not the zone's.
    fn foreign(&self, rng: &mut Rng, desk: &Desk) -> Vec<u8> {
        loop {
            let record = self.some_record(rng, desk);
            if !self.place.has(&record) {
                return record;
            }
        }
    }

    fn some_record(&self, rng: &mut Rng, desk: &Desk) -> Vec<u8> {
        let (own, other) = (Message::from_bytes(&rng.pick(&self.messages)), rng.pick(&self.others));
        let message = match rng.weighted(&SORTS) {
            Sort::Talk => return self.talk.next(rng, desk).to_vec(),
            Sort::Copy => own.in_zone(other),
            Sort::Recorder => builders::recorder(rng.pick(&[0, 0, 1])).in_zone(other).at(self.late(rng, desk, other)),
            Sort::Length => {
                let length = rng.pick(&[0, 31, 33, 64]);
                return [own.to_bytes(), [0; RECORD]].concat()[..length].to_vec();
            }
            Sort::Kind => Message { kind: rng.pick(&[0, 14, 15, 20, 255]), ..own },
            Sort::NoZone => own.in_zone(rng.within(u32::from(self.place.zones)..=255) as u8),
            Sort::Field => own.d(rng.index(6), rng.pick(&[64, 255])),
        };
        message.to_bytes().to_vec()
    }

    /// A time not before another zone's last, much later at times.
    fn late(&self, rng: &mut Rng, desk: &Desk, zone: u8) -> u32 {
        let last = desk.zone(zone).map_or(0, |zone| zone.last);
        last.saturating_add(rng.pick(&[0, 1, 60, 3_600, 1_000_000]))
    }
}

/// Messages of the zone, for a desk that hears nothing else: accepted ones and refused ones.
fn own(rng: &mut Rng, station: &Station, place: Place, talk: &Talk) -> Vec<[u8; RECORD]> {
    let mut desk = Desk::fresh(station);
    let mut messages = Vec::new();
    let length = rng.within(5..=40) as usize;
    while messages.len() < length {
        let record = talk.next(rng, &desk);
        if place.has(&record) {
            let _ = desk.hear_record(&record);
            messages.push(record);
        }
    }
    messages
}
