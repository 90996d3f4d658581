//! Separation (APART-2): lists alike in zone 0 give it the same, whatever zone 1 hears; and the comparison finds the
//! desks that mix their zones.

use crate::builders::*;
use crate::desk::{Desk, ZONES};
use crate::drafts::Sheet;
use crate::message::{Message, RECORD};
use crate::refusal::number;
use crate::replay::{movement_numbers, work_numbers};
use crate::separation::{alike, given, kept, messages, zone_of, Given, Heard, HeardHere, Numbers, Place};
use crate::sheet::{self, ELECTRIC, HAND};
use crate::station::Station;
use crate::zone::Zone;

type List = Vec<Vec<u8>>;

const PLACE: Place = Place { zone: 0, zones: 2 };
const TRAINS: [u32; 3] = [512, 513, 999];
const HELD: u8 = 0;

/// Zone 0 is station K; zone 1 has 3, electric, and 4, by hand, and route 1 over 3 with 4 as flank.
fn station() -> Station {
    let k = Sheet { zones: 2, ..station_k() };
    let sheet = k.turnout(1, ELECTRIC).turnout(1, HAND).route(1, &[3], &[4], &[], &[]);
    sheet::read(&sheet.bytes()).expect("a good sheet")
}

/// What zone 0 hears: a work and a train, then another work and the train again.
fn own() -> Vec<Message> {
    vec![
        work_asked(7, 1, &[0, 1]).at(100),
        agreed(7).at(110),
        detection_off(7, &[0, 1], &[]).at(120),
        movement_asked(512, 0).at(130),
        ordered(512, 1).at(131), // held
        cleared(512, [0, 1, 0, 0, 1]).whole_group().at(140),
        movement_asked(513, 0).at(141), // a movement is there
        ordered(512, 1).at(150),
        passed(512).at(160),
        all_restored(7).at(230),
        work_asked(8, 2, &[2]).at(240),
        agreed(8).at(250),
        detection_off(8, &[2], &[]).at(260),
        agreed(8).at(259), // before the last time
        movement_asked(512, 0).at(270),
    ]
}

/// What it has from them: 120 seconds are 2 minutes; turnout 2 is open to work and lacks a clearance.
fn own_given() -> Given {
    let mut answers = [0, 0, 0, 0, 22, 0, 16, 0, 0, 0, 0, 0, 0, 14, 0].map(|code| (code, 0)).to_vec();
    answers[9] = (0, 2);
    let none = [15, HELD, 255, 0];
    Given {
        answers,
        movements: vec![(512, [0, HELD, 2, 1]), (513, none), (999, none)],
        works: vec![(0, [0, 0]), (1, [0, 0]), (2, [0, 1])],
    }
}

fn records(messages: &[Message]) -> List {
    messages.iter().map(|message| message.to_bytes().to_vec()).collect()
}

fn zone_1<const N: usize>(messages: [Message; N]) -> List {
    records(&messages.map(|message| message.in_zone(1)))
}

/// Records for each of 10 to 13, of what zone 0 would accept; four of 10, two of 12.
fn of_no_zone() -> List {
    let good = work_asked(7, 1, &[0, 1]).at(90);
    let bytes = good.to_bytes().to_vec();
    let lengths = [vec![], bytes[..31].to_vec(), [&bytes[..], &[0]].concat(), [&bytes[..], &bytes[..]].concat()];
    let others = [Message { kind: 14, ..good }, good.in_zone(2), good.in_zone(255), good.d(5, 1)];
    [lengths.to_vec(), records(&others)].concat()
}

/// Zone 0's messages after these, and with each of these after one of its messages.
fn both_ways(others: &List) -> [List; 2] {
    let own = records(&own());
    let others_at = |n: usize| others.get(n).cloned();
    let woven = (0..own.len()).flat_map(|n| [Some(own[n].clone()), others_at(n)]).flatten().collect();
    [[others.clone(), own.clone()].concat(), woven]
}

/// Lists alike in zone 0, by what zone 1 or nobody hears: nothing, a late message, its recorder out, the same work and
/// train, refused ones, records of no zone.
fn lists() -> Vec<List> {
    let late = zone_1([recorder(1).at(1_000_000)]);
    let out = zone_1([recorder(0)]);
    let same_ids = zone_1([work_asked(7, 1, &[3]), agreed(7), movement_asked(512, 1), movement_asked(513, 1)]);
    let refused = zone_1([agreed(7), movement_asked(512, 0), work_asked(7, 1, &[0, 1]), passed(512)]);
    [vec![], late, out, same_ids, refused, of_no_zone()].iter().flat_map(both_ways).collect()
}

#[test]
fn which_zone() {
    for message in own() {
        assert_eq!(zone_of(&message.to_bytes(), 2), Some(0));
        assert_eq!(zone_of(&message.in_zone(1).to_bytes(), 2), Some(1));
        assert_eq!(zone_of(&message.in_zone(1).to_bytes(), 1), None); // 12 on a station of one zone
    }
    assert_eq!(zone_of(&recorder(0).in_zone(7).to_bytes(), 8), Some(7));
    let (station, none) = (station(), of_no_zone());
    let codes: Vec<u8> = HeardHere::of(&station, &none).answers().iter().map(|(code, _)| *code).collect();
    assert_eq!(codes, [10, 10, 10, 10, 11, 12, 12, 13]);
    assert!(none.iter().all(|record| zone_of(record, 2).is_none()));
}

#[test]
fn messages_of_a_zone() {
    for list in lists() {
        assert_eq!(messages(&list, PLACE), own());
        assert_eq!(kept(&list, PLACE), records(&own()));
        assert!(alike(&list, &records(&own()), PLACE));
    }
    let mut swapped = own();
    swapped.swap(3, 4);
    assert!(!alike(&records(&swapped), &records(&own()), PLACE)); // the order
    assert!(!alike(&records(&own()[1..]), &records(&own()), PLACE)); // one less
    let zone_1 = Place { zone: 1, ..PLACE };
    assert!(alike(&records(&swapped), &records(&own()), zone_1)); // which has none of them
}

#[test]
fn alike_lists_give_the_same() {
    let station = station();
    for list in lists() {
        let heard = HeardHere::of(&station, &list);
        assert_eq!(given(&heard, &list, &station, 0, TRAINS), own_given());
    }
}

/// What a wrong desk shares between zones, or takes from another.
#[derive(Clone, Copy, Debug, PartialEq)]
enum Fault {
    None,
    CommonClock,
    CommonRecorder,
    StoresElsewhere,
    AnswersFromElsewhere,
}

/// A desk made from this implementation's, with the fault; it hears messages where it can.
struct Wrong<'s> {
    desk: Desk<'s>,
    fault: Fault,
    answers: Vec<Numbers>,
}

impl<'s> Wrong<'s> {
    fn of(station: &'s Station, list: &List, fault: Fault) -> Self {
        let mut wrong = Wrong { desk: Desk::fresh(station), fault, answers: Vec::new() };
        list.iter().for_each(|record| wrong.hear(record));
        wrong
    }

    fn hear(&mut self, record: &[u8]) {
        let before = *self.desk.zones();
        let message = <&[u8; RECORD]>::try_from(record).map(Message::from_bytes);
        let answer = match message {
            Ok(message) => self.desk.hear(&message),
            Err(_) => self.desk.hear_record(record),
        };
        self.answers.push((number(&answer), answer.unwrap_or(0)));
        if let (Ok(message), Ok(_)) = (message, answer) {
            let zones = self.fault.stored(&message, before, *self.desk.zones());
            self.desk = Desk::with(self.desk.station(), zones);
        }
    }
}

impl Fault {
    /// What the desk holds once it accepted a message.
    fn stored<'s>(self, message: &Message, before: [Zone<'s>; ZONES], after: [Zone<'s>; ZONES]) -> [Zone<'s>; ZONES] {
        let zone = usize::from(message.zone);
        match self {
            Fault::CommonClock => after.map(|zone| Zone { last: message.time, ..zone }),
            Fault::CommonRecorder => after.map(|any| Zone { recorder_working: after[zone].recorder_working, ..any }),
            Fault::StoresElsewhere => {
                let mut stored = before;
                stored[1 - zone] = after[zone];
                stored
            }
            Fault::None | Fault::AnswersFromElsewhere => after,
        }
    }
}

impl Heard for Wrong<'_> {
    fn answers(&self) -> &[Numbers] {
        &self.answers
    }

    fn movement(&self, zone: u8, train: u32) -> [u8; 4] {
        let zone = if self.fault == Fault::AnswersFromElsewhere { 1 - zone } else { zone };
        movement_numbers(&self.desk.movement_question(zone, train))
    }

    fn work(&self, turnout: u8) -> [u8; 2] {
        work_numbers(&self.desk.work_question(turnout))
    }
}

/// What each of the lists gives zone 0 by a desk with the fault.
fn given_with(fault: Fault) -> Vec<Given> {
    let station = station();
    let of = |list: &List| given(&Wrong::of(&station, list, fault), list, &station, 0, TRAINS);
    lists().iter().map(of).collect()
}

/// The comparison: two of these lists, all alike in zone 0, that give it something else.
fn differ(all: &[Given]) -> bool {
    all.iter().any(|given| *given != all[0])
}

#[test]
fn wrong_desks_are_found() {
    assert!(given_with(Fault::None).iter().all(|given| *given == own_given()));
    assert!(!differ(&given_with(Fault::None)));
    let [clock, recorder, stores, answers] =
        [Fault::CommonClock, Fault::CommonRecorder, Fault::StoresElsewhere, Fault::AnswersFromElsewhere]
            .map(given_with);
    assert!(differ(&clock) && differ(&recorder) && differ(&stores) && differ(&answers));
    // Zone 1 late before all; its recorder out before the clearance; the train standing in zone 1.
    assert!(clock[2].answers.iter().all(|answer| *answer == (14, 0)));
    assert_eq!(recorder[4].answers[5], (21, 0));
    assert_eq!(answers[6].movements[0], (512, [0, HELD, 3, 1]));
    assert_ne!(answers[6].movements, answers[0].movements);
    assert_eq!(answers[6].answers, own_given().answers); // found by the question alone
}
