//! Cases of kinds 1 to 12: every number each can be answered with, and two faults in order. Kind 13 stands in `keys`.
//! Here: the yard they are heard on, what opens their lists, zone and clock.

mod clearances;
mod movements;
mod works;

use crate::cases::Cases;
use crate::scenes::*;
use reference::builders::*;
use reference::drafts::Sheet;
use reference::message::Message;
use reference::sheet::{ELECTRIC, HAND};

/// Zone 0: 0-1 an electric crossover, 2 by hand, 3-4 a hand crossover, 5 electric. Zone 1: 6 electric, 7 by hand.
/// Route 0 runs over 0 (reverse), 2 and 5, flank 3 and 4 (reverse). Route 1 is zone 1's. Route 2 runs over 2 alone,
/// route 3 over 5, with 0 and 2 its exit zone.
fn yard() -> Vec<u8> {
    Sheet::new(2)
        .crossover(0, ELECTRIC)
        .turnout(0, HAND)
        .crossover(0, HAND)
        .turnout(0, ELECTRIC)
        .turnout(1, ELECTRIC)
        .turnout(1, HAND)
        .route(0, &[0, 2, 5], &[3, 4], &[], &[0, 3, 4])
        .route(1, &[6], &[7], &[], &[7])
        .route(0, &[2], &[], &[], &[])
        .route(0, &[5], &[], &[0, 2], &[2])
        .bytes()
}

fn asked(turnouts: &[u8]) -> Message {
    work_asked(FORM, M45, turnouts)
}

/// Work on 2 and a train over it.
fn two() -> Vec<Message> {
    work_and_train(M45, &[2], 0)
}

/// The same, 2 cleared as all efficient.
fn clear_2() -> Vec<Message> {
    then(two(), &[cleared(TRAIN, [2, 2, 0, 0, VOICE])])
}

/// The same, 2 cleared without detection.
fn danger_2() -> Vec<Message> {
    then(two(), &[cleared(TRAIN, [2, 7, 0, 0, VOICE])])
}

/// Work on 2 and 5 and a train over both, 2 cleared.
fn cleared_2(form: u8) -> Vec<Message> {
    then(work_and_train(form, &[2, 5], 0), &[cleared(TRAIN, [2, 1, 0, 0, VOICE])])
}

/// The kinds that speak of work or of a movement already there.
fn needs_an_id(message: &Message) -> bool {
    !matches!(message.kind, 1 | 5 | 12)
}

pub fn add(cases: &mut Cases) {
    let yard = yard();
    zone_and_clock(cases, &yard);
    works::kind_1(cases, &yard);
    works::kind_2(cases, &yard);
    works::kind_3(cases, &yard);
    works::kind_4(cases, &yard);
    movements::kind_5(cases, &yard);
    clearances::kind_6(cases, &yard);
    clearances::kind_6_position(cases, &yard);
    clearances::kind_6_drive_and_clamp(cases, &yard);
    clearances::kind_6_channel(cases, &yard);
    movements::kind_7(cases, &yard);
    movements::kind_8(cases, &yard);
    movements::kind_9(cases, &yard);
    works::kind_10(cases, &yard);
    works::kind_11(cases, &yard);
    clearances::kind_12(cases, &yard);
}

/// Zone and clock, each kind.
fn zone_and_clock(c: &mut Cases, y: &[u8]) {
    c.codes(&[12; 13], y, &one_of_each(&[2]).map(|message| message.in_zone(2))); // zone equal to Z
    let early = one_of_each(&[2]).map(|message| message.at(9));
    let early_codes = |accepted: usize| [vec![0; accepted], vec![14; 13]].concat();
    c.codes(&early_codes(1), y, &then(vec![recorder(1).at(10)], &early)); // 14, before 15 to 18 on an empty zone
    let busy = then(work_and_train(M45, &[2], 0), &[recorder(1).at(10)]);
    c.codes(&early_codes(4), y, &then(busy, &early)); // 14, before 16 to 23 on a zone at work
    c.list(12, y, &[recorder(0).in_zone(255)]); // zone 255
    c.codes(&[15; 10], y, &one_of_each(&[2]).into_iter().filter(needs_an_id).collect::<Vec<_>>()); // 15 on a fresh desk
    c.list(13, y, &[recorder(2).in_zone(2)]); // 13 before 12
    c.list(11, y, &[message(14, 0).in_zone(2)]); // 11 before 13 and 12
    c.list(0, y, &[recorder(1).at(10), recorder(1).in_zone(1).at(5)]); // each zone has its own clock
    c.list(14, y, &[recorder(1).at(u32::MAX), recorder(1).at(u32::MAX - 1)]); // at the largest time
    c.list(0, y, &[recorder(1).at(u32::MAX), recorder(1).at(u32::MAX)]); // equal to it
    c.codes(&[15, 0], y, &[agreed(FORM).at(500), recorder(1).at(10)]); // a refused message leaves the clock
    let refused_first = [recorder(1).at(500).in_zone(9), asked(&[0]).at(400), recorder(1).at(10)];
    c.codes(&[12, 17, 0], y, &refused_first); // two refused messages
}
