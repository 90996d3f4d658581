//! What is timed: station K with rising times, the largest station with a long conversation in all its zones, in both
//! versions of sheets, and sheets of as many routes as turnouts.

use reference::builders;
use reference::drafts::Sheet;
use reference::message::{Message, RECORD};
use reference::sheet::{self, ELECTRIC};
use reference::{journal, replay};

/// Records in each journal.
pub const RECORDS: usize = 1024;

/// How the turnouts of a sheet are tied.
#[derive(Clone, Copy)]
pub enum Tied {
    /// Version 1.
    Crossovers,
    /// Version 2: groups of so many.
    Groups(u8),
}

impl Tied {
    /// So many turnouts more in a zone, all electric and all tied.
    fn more(self, sheet: Sheet, zone: u8, turnouts: u8) -> Sheet {
        match self {
            Tied::Crossovers => (0..turnouts / 2).fold(sheet, |sheet, _| sheet.crossover(zone, ELECTRIC)),
            Tied::Groups(size) => {
                (0..turnouts / size).fold(sheet, |sheet, _| sheet.group(zone, ELECTRIC, usize::from(size)))
            }
        }
    }

    /// A sheet with nothing in it yet.
    fn sheet(self, zones: u8) -> Sheet {
        match self {
            Tied::Crossovers => Sheet::new(zones),
            Tied::Groups(_) => Sheet::of_version_2(zones),
        }
    }
}

/// The largest station in crossovers, its journal, and the journal's accepted records.
pub struct Inputs {
    pub large: Vec<u8>,
    pub talk: Vec<u8>,
    pub records: Vec<[u8; RECORD]>,
}

impl Inputs {
    pub fn largest() -> Inputs {
        let (large, talk) = (largest_station(Tied::Crossovers), long_talk(RECORDS));
        let records = accepted(&large, &talk);
        Inputs { large, talk, records }
    }
}

pub fn station_k() -> Vec<u8> {
    builders::station_k().bytes()
}

/// Station K's records again and again, each time later.
pub fn talk_k() -> Vec<u8> {
    let once = builders::journal_k();
    let all: Vec<Message> = (0..RECORDS)
        .map(|i| once[i % once.len()].at(once[i % once.len()].time + 300 * (i / once.len()) as u32))
        .collect();
    builders::journal(&all)
}

/// 8 zones of 8 turnouts, all of them tied, and in each zone 8 routes, each over one turnout.
pub fn largest_station(tied: Tied) -> Vec<u8> {
    let mut sheet = (0..8).fold(tied.sheet(8), |sheet, zone| tied.more(sheet, zone, 8));
    for route in 0..64 {
        sheet = sheet.route(route / 8, &[route], &[], &[], &[]);
    }
    sheet.bytes()
}

/// So many records of a crossover worked on while a train crosses it, in each zone in turn; every message is accepted.
pub fn long_talk(records: usize) -> Vec<u8> {
    let mut all = Vec::new();
    for i in 0..records as u32 / 8 + 1 {
        let zone = (i % 8) as u8;
        let (a, b) = (8 * zone, 8 * zone + 1);
        let (form, train) = (7 + i, 500 + i);
        all.extend(
            [
                builders::work_asked(form, 1, &[a, b]),
                builders::agreed(form),
                builders::detection_off(form, &[a, b], &[]),
                builders::movement_asked(train, a),
                builders::cleared(train, [a, 3, 0, 0, 1]),
                builders::ordered(train, 2),
                builders::passed(train),
                builders::all_restored(form),
            ]
            .map(|message| message.in_zone(zone).at(i)),
        );
    }
    all.truncate(records);
    builders::journal(&all)
}

/// So many turnouts, all tied in twos in one zone, and as many routes, each of which names them all: route n runs over
/// both ends of crossover c where c + n leaves 0 or 1 by four, has them as flank where it leaves 2, in its exit zone
/// where it leaves 3, and has them reverse where c + n is even. So every turnout is looked at for every route.
pub fn square_station(tied: Tied, turnouts: u8) -> Vec<u8> {
    let those = |route: u8, rests: &[u8]| -> Vec<u8> {
        (0..turnouts).filter(|turnout| rests.contains(&((turnout / 2 + route) % 4))).collect()
    };
    let mut sheet = tied.more(tied.sheet(1), 0, turnouts);
    for n in 0..turnouts {
        let [run_over, flank, exit_zone, reverse] = [&[0, 1][..], &[2], &[3], &[0, 2]].map(|rests| those(n, rests));
        sheet = sheet.route(0, &run_over, &flank, &exit_zone, &reverse);
    }
    sheet.bytes()
}

/// Requests for work on the largest station, each refused by 17: its set has these turnouts of the last group without
/// turnout 63. They are all of one kind, so that the test for split groups weighs most; that group is the last, so that
/// a test that goes by the station's turnouts or groups looks at most of them. A refused one leaves its zone free; an
/// accepted one would need another message to end its work.
pub fn split_requests(without_63: &[u8]) -> Vec<u8> {
    builders::journal(&[builders::work_asked(7, 1, without_63).in_zone(7); RECORDS])
}

/// The records of a journal that are accepted.
pub fn accepted(sheet: &[u8], journal: &[u8]) -> Vec<[u8; RECORD]> {
    let station = sheet::read(sheet).expect("a good sheet");
    let (answers, _) = replay::hear_all(&station, journal).expect("a good journal");
    let records = journal::records(journal).expect("a good journal");
    let accepted = records.zip(answers).filter(|(_, answer)| answer.is_ok());
    accepted.map(|(record, _)| record.try_into().expect("a record")).collect()
}
