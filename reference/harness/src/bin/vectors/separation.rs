//! Cases of lists alike in one zone. APART-2: "Two lists .. alike in the messages of one zone and their order and
//! differing in the others at will, give that zone the same codes, minutes and question answers."

use crate::cases::Cases;
use crate::scenes::*;
use reference::builders::*;
use reference::drafts::Sheet;
use reference::message::Message;
use reference::sheet::{ELECTRIC, HAND};

/// Messages, each with the code stated for it.
type Stated = Vec<(Message, u8)>;

/// Zone 0 is station K; zone 1 has 3, electric, and 4, by hand, and route 1 over 3 with 4 as flank.
fn sheet() -> Vec<u8> {
    let k = Sheet { zones: 2, ..station_k() };
    k.turnout(1, ELECTRIC).turnout(1, HAND).route(1, &[3], &[4], &[], &[]).bytes()
}

/// What zone 0 hears: a work and a train, 120 seconds from agreement to restoration.
fn zone_0() -> Stated {
    vec![
        (work_asked(FORM, M45, &[0, 1]).at(100), 0),
        (agreed(FORM).at(110), 0),
        (detection_off(FORM, &[0], &[1]).at(120), 0),
        (movement_asked(TRAIN, 0).at(130), 0),
        (ordered(TRAIN, CLEAR).at(131), 22), // held
        (cleared(TRAIN, [0, 1, 0, 0, VOICE]).whole_group().at(140), 0),
        (ordered(TRAIN, CLEAR).at(139), 14),
        (ordered(TRAIN, CLEAR).at(150), 0),
        (passed(TRAIN).at(160), 0),
        (all_restored(FORM).at(230), 0),
    ]
}

/// What zone 1 hears: a work and a train under the same numbers, later; 600 seconds from agreement to restoration.
fn zone_1() -> Stated {
    let list = vec![
        (recorder(0).at(1_000), 0),
        (movement_asked(TRAIN, 1).at(1_000), 0), // no work: clear
        (ordered(TRAIN, CLEAR).at(1_001), 0),
        (passed(TRAIN).at(1_002), 0),
        (work_asked(FORM, VERBAL, &[3]).at(1_003), 0),
        (agreed(FORM).at(1_003), 0),
        (detection_off(FORM, &[], &[3]).at(1_004), 22), // a portable device under verbal
        (detection_off(FORM, &[3], &[]).at(1_005), 0),
        (all_restored(FORM).at(1_603), 0),
    ];
    list.into_iter().map(|(message, code)| (message.in_zone(1), code)).collect()
}

/// One of these, one of those, in turn; then what is left.
fn woven(one: Stated, other: Stated) -> Stated {
    let (mut one, mut other) = (one.into_iter(), other.into_iter());
    let turn = |_: usize| [one.next(), other.next()];
    (0..20).flat_map(turn).flatten().collect()
}

fn joined(one: Stated, other: Stated) -> Stated {
    [one, other].concat()
}

/// A replay with its codes, and the minutes of each accepted kind 11.
fn heard(c: &mut Cases, list: &[(Message, u8)], minutes: &[u32]) {
    let (messages, codes): (Vec<Message>, Vec<u8>) = list.iter().copied().unzip();
    c.state_minutes(minutes, &sheet(), &messages);
    c.codes(&codes, &sheet(), &messages);
}

fn stored(list: &[(Message, u8)]) -> Vec<u8> {
    journal(&list.iter().map(|(message, _)| *message).collect::<Vec<_>>())
}

pub fn add(cases: &mut Cases) {
    answers(cases);
    questions(cases);
}

/// Codes and minutes of zone 0, whatever else is heard.
fn answers(c: &mut Cases) {
    heard(c, &zone_0(), &[2]); // zone 0 alone
    heard(c, &zone_1(), &[10]); // zone 1 alone
    heard(c, &woven(zone_0(), zone_1()), &[10, 2]); // both in turn: alike to the first, and to the second
    heard(c, &joined(zone_1(), zone_0()), &[10, 2]); // zone 1 first: its times are later, its recorder is out
    let last = vec![(recorder(0).in_zone(1).at(u32::MAX), 0)];
    heard(c, &joined(last, zone_0()), &[2]); // the last second of all, and the recorder out
    let refused = vec![
        (agreed(FORM).in_zone(1), 15),
        (movement_asked(TRAIN, 0).in_zone(1), 17), // a route of zone 0
        (work_asked(FORM, M45, &[0, 1]).in_zone(1), 17),
        (recorder(1).in_zone(1).at(9), 0),
        (recorder(0).in_zone(1).at(8), 14),
        (passed(TRAIN).in_zone(1).at(9), 15),
        (all_restored(FORM).in_zone(1).at(9), 15),
    ];
    heard(c, &woven(refused, zone_0()), &[2]); // zone 1's messages refused, but one
    let good = recorder(0).at(1_000);
    let of_no_zone = vec![
        (Message { kind: 14, ..good }, 11),
        (good.in_zone(2), 12),
        (good.in_zone(255), 12),
        (good.d(0, 2), 13),
        (Message { id: FORM, ..good }, 13),
    ];
    heard(c, &woven(of_no_zone, zone_0()), &[2]); // records of no zone: neither clock nor recorder
}

/// Both questions of a zone, with the same form and train in the other.
fn questions(c: &mut Cases) {
    let (sheet, held) = (sheet(), zone_0()[..5].to_vec());
    let alone = stored(&held);
    let both = stored(&woven(held.clone(), zone_1()[..3].to_vec()));
    let open = stored(&joined(held, zone_1()[..8].to_vec()));
    c.movement([0, HELD, 0, 1], &sheet, &alone, 0, TRAIN); // turnout 0 lacks a clearance
    c.movement([0, HELD, 0, 1], &sheet, &both, 0, TRAIN); // so it does with the train clear in zone 1
    c.movement([0, CLEAR, NONE, 0], &sheet, &both, 1, TRAIN); // which it is there
    c.movement([15, HELD, NONE, 0], &sheet, &stored(&zone_1()[..3]), 0, TRAIN); // in zone 1 alone
    c.work([0, 1], &sheet, &open, 0); // open in zone 0
    c.work([0, 1], &sheet, &open, 3); // and in zone 1, each by its own kind 4
    c.work([0, 0], &sheet, &both, 3); // zone 0's opens none of zone 1
}
