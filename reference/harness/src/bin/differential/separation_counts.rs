//! Counts of what occurred in pairs of lists alike in one zone (APART-2): what the lists differ in, and what a desk
//! that mixes its zones would get wrong.

use crate::separation_lists::{List, Pair};
use reference::message::{Message, RECORD};
use reference::movement::Movement;
use reference::separation::{zone_of, Given, Heard, HeardHere};

const NAMES: [&str; 17] = [
    "pairs of lists",
    // Where the lists differ. In `elsewhere` these are 0 to 5.
    "other zones' accepted messages differ",
    "other zones' refused messages differ",
    "records of no zone differ, 10",
    "records of no zone differ, 11",
    "records of no zone differ, 12",
    "records of no zone differ, 13",
    // What the zone was given.
    "a message of the zone accepted",
    "a message of the zone refused",
    "a turnout of the zone open to work",
    "kind 11 of the zone with minutes above 0",
    // What would be answered otherwise, were it common to all zones.
    "accepted at a time before another zone's last",
    "voice clearance accepted, another zone's recorder out since",
    "work asked, accepted beside another zone's work",
    "movement asked, accepted beside another zone's movement",
    "another zone answers otherwise for the same train",
    "another zone answers otherwise for a train that stands in both",
];

#[derive(Default)]
pub struct Separation {
    /// By place in `NAMES`.
    counts: [u64; NAMES.len()],
}

impl Separation {
    fn count(&mut self, name: &str, occurred: bool) {
        let place = NAMES.iter().position(|other| *other == name).expect("one of the names");
        self.counts[place] += u64::from(occurred);
    }

    /// A pair as the desks of this implementation heard it, and what it gave the zone.
    pub fn pair(&mut self, pair: &Pair, heard: [&HeardHere; 2], given: &Given) {
        self.count("pairs of lists", true);
        let [one, other] = [0, 1].map(|n| elsewhere(pair, &pair.lists[n], heard[n]));
        for (name, (one, other)) in NAMES[1..].iter().zip(one.iter().zip(&other)) {
            self.count(name, one != other);
        }
        self.count("a message of the zone accepted", given.answers.iter().any(|(code, _)| *code == 0));
        self.count("a message of the zone refused", given.answers.iter().any(|(code, _)| *code != 0));
        self.count("a turnout of the zone open to work", given.works.iter().any(|(_, answer)| *answer == [0, 1]));
        self.count("kind 11 of the zone with minutes above 0", given.answers.iter().any(|(_, minutes)| *minutes > 0));
        let either = |mixed: Mixed| [0, 1].iter().any(|&n| mixed(pair, &accepted(&pair.lists[n], heard[n])));
        self.count("accepted at a time before another zone's last", either(before_others));
        self.count("voice clearance accepted, another zone's recorder out since", either(recorder_out));
        self.count("work asked, accepted beside another zone's work", either(beside_work));
        self.count("movement asked, accepted beside another zone's movement", either(beside_movement));
        let elsewhere = |codes: &[u8]| heard.iter().any(|heard| same_train_elsewhere(pair, heard, given, codes));
        self.count("another zone answers otherwise for the same train", elsewhere(&[0, 15]));
        self.count("another zone answers otherwise for a train that stands in both", elsewhere(&[0]));
    }

    pub fn counts(&self) -> Vec<(String, u64)> {
        NAMES.iter().zip(self.counts).map(|(name, count)| (format!("separation, {name}"), count)).collect()
    }
}

/// Whether the accepted messages of a list have what a desk with something common to all zones would get wrong.
type Mixed = fn(&Pair, &[Message]) -> bool;

/// The records that are not the zone's: accepted and refused messages of other zones, and those of no zone by code, 10
/// to 13.
fn elsewhere<'l>(pair: &Pair, list: &'l List, heard: &HeardHere) -> [Vec<&'l [u8]>; 6] {
    let mut sorts = [const { Vec::new() }; 6];
    for (record, (code, _)) in list.iter().zip(heard.answers()) {
        match (zone_of(record, pair.station.zones), *code) {
            (Some(zone), _) if zone == pair.zone => {}
            (Some(_), 0) => sorts[0].push(&record[..]),
            (Some(_), _) => sorts[1].push(&record[..]),
            (None, code) => sorts[usize::from(code) - 8].push(&record[..]),
        }
    }
    sorts
}

/// The accepted messages of a list, of all zones.
fn accepted(list: &List, heard: &HeardHere) -> Vec<Message> {
    let records = list.iter().zip(heard.answers()).filter(|(_, (code, _))| *code == 0);
    records.filter_map(|(record, _)| <&[u8; RECORD]>::try_from(&record[..]).ok()).map(Message::from_bytes).collect()
}

/// A common clock would refuse one by 14.
fn before_others(pair: &Pair, accepted: &[Message]) -> bool {
    let mut last = 0;
    accepted.iter().any(|message| {
        last = last.max(if message.zone == pair.zone { 0 } else { message.time });
        message.zone == pair.zone && message.time < last
    })
}

/// A common recorder would refuse one by 21.
fn recorder_out(pair: &Pair, accepted: &[Message]) -> bool {
    let mut out = false;
    accepted.iter().any(|message| {
        if message.kind == 12 {
            out = message.zone != pair.zone && message.d[0] == 0;
        }
        message.zone == pair.zone && message.kind == 6 && message.d[4] == 1 && out
    })
}

/// One work for all zones would refuse by 16.
fn beside_work(pair: &Pair, accepted: &[Message]) -> bool {
    beside(pair, accepted, 1, &[3, 11])
}

/// One movement for all zones would refuse by 16.
fn beside_movement(pair: &Pair, accepted: &[Message]) -> bool {
    beside(pair, accepted, 5, &[8, 9])
}

/// The zone has a message of the kind accepted, while another zone has one that none of those ended.
fn beside(pair: &Pair, accepted: &[Message], kind: u8, ends: &[u8]) -> bool {
    let mut others = Vec::new();
    accepted.iter().any(|message| {
        if message.zone == pair.zone {
            return message.kind == kind && !others.is_empty();
        }
        if message.kind == kind {
            others.push(message.zone);
        }
        if ends.contains(&message.kind) {
            others.retain(|zone| *zone != message.zone);
        }
        false
    })
}

/// A train asked for in the zone, with one of these codes, stands in another zone, and the answer there is another.
fn same_train_elsewhere(pair: &Pair, heard: &HeardHere, given: &Given, codes: &[u8]) -> bool {
    let others = || (0..pair.station.zones).filter(|&zone| zone != pair.zone);
    let stands = |zone: u8, train: u32| {
        heard
            .desk
            .zone(zone)
            .is_some_and(|zone| matches!(zone.movement, Movement::Standing(other) if other.id == train))
    };
    let otherwise =
        |train: u32, answer: [u8; 4]| others().any(|zone| stands(zone, train) && heard.movement(zone, train) != answer);
    given.movements.iter().any(|(train, answer)| codes.contains(&answer[0]) && otherwise(*train, *answer))
}
