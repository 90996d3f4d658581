//! Cases of whole conversations: station K with both questions after each prefix, the largest station,
//! records that do not read inside a journal.

use crate::cases::Cases;
use crate::scenes::*;
use reference::builders::*;
use reference::drafts::journal_of;
use reference::message::Message;
use reference::sheet;

/// A conversation in zones 0, 3 and 7 of the largest station.
fn several_zones() -> Vec<Message> {
    vec![
        work_asked(1, 1, &[0, 1, 4]).at(10),
        work_asked(1, 2, &[58, 59, 61, 63]).in_zone(7).at(5),
        agreed(1).at(20),
        agreed(1).in_zone(7).at(6),
        detection_off(1, &[0, 4], &[1]).at(21),
        detection_off(1, &[59, 61, 63], &[]).in_zone(7).at(30),
        movement_asked(900, 0).at(40),
        movement_asked(900, 56).in_zone(7).at(41),
        movement_asked(901, 27).in_zone(3).at(2),
        recorder(0).in_zone(7).at(42),
        cleared(900, [0, 1, 1, 0, 1]).whole_group().at(43),
        cleared(900, [58, 7, 0, 0, 2]).in_zone(7).at(44),
        cleared(900, [1, 6, 1, 1, 1]).at(45),
        ordered(901, 1).in_zone(3).at(46),
        ordered(900, 1).at(47), // held
        cleared(900, [59, 9, 0, 0, 2]).in_zone(7).at(48),
        cleared(900, [4, 2, 0, 0, 1]).at(49),
        ordered(900, 1).at(50), // danger
        ordered(900, 2).at(51),
        cleared(900, [61, 8, 0, 0, 2]).in_zone(7).at(52),
        part_restored(1, &[63]).in_zone(7).at(53),
        ordered(900, 2).in_zone(7).at(54),
        passed(901).in_zone(3).at(55),
        passed(900).at(56),
        passed(900).in_zone(7).at(57),
        all_restored(1).at(141),
        all_restored(1).in_zone(7).at(125),
    ]
}

pub fn add(cases: &mut Cases) {
    let c = cases;

    // Station K: the journal, and both questions after each prefix.
    let k = station_k().bytes();
    let records = journal_k();
    c.state_minutes(&[2], &k, &records); // K-2: "the last line becomes '11 0 2'"
    c.codes(&[0, 0, 0, 0, 22, 0, 22, 0, 19, 0, 0], &k, &records); // the whole journal
    for n in 0..=records.len() {
        let prefix = journal(&records[..n]);
        let movement = match n {
            4 | 5 => [0, HELD, 0, 1],
            6..=9 => [0, DANGER, NONE, 0],
            _ => [15, HELD, NONE, 0],
        };
        c.movement(movement, &k, &prefix, 0, 512); // the train
        c.work([0, u8::from((3..=5).contains(&n))], &k, &prefix, 0); // turnout 0: shut by its clearance
        if matches!(n, 2 | 3 | 6 | 10 | 11) {
            c.work([0, u8::from((3..=10).contains(&n))], &k, &prefix, 1); // turnout 1: open until restored
        }
    }
    let six = journal(&records[..6]);
    c.work([0, 0], &k, &six, 2); // never open
    c.work([13, 0], &k, &six, 3); // turnout P
    c.work([13, 0], &k, &six, 64); // turnout 64
    c.work([13, 0], &k, &six, 255); // turnout 255
    c.movement([12, HELD, NONE, 0], &k, &six, 1, 512); // zone Z
    c.movement([12, HELD, NONE, 0], &k, &six, 255, 512); // zone 255
    c.movement([15, HELD, NONE, 0], &k, &six, 0, 511); // another train
    c.movement([15, HELD, NONE, 0], &k, &six, 0, 0); // no train
    c.movement([15, HELD, NONE, 0], &k, &six, 0, 7); // the id of the work
    c.movement([12, HELD, NONE, 0], &k, &six, 1, 513); // 12 before 15

    // Regimes.
    let fresh_train = [movement_asked(512, 0)];
    c.movement([0, CLEAR, NONE, 0], &k, &journal(&fresh_train), 0, 512); // clear: nothing under work
    let both = [work_asked(7, 1, &[0, 1, 2]), agreed(7), movement_asked(512, 0)];
    c.movement([0, HELD, 0, 2], &k, &journal(&both), 0, 512); // held: 0 and 2 lack one
    let one = [&both[..], &[cleared(512, [0, 1, 0, 0, 1]).whole_group()]].concat();
    c.movement([0, HELD, 2, 1], &k, &journal(&one), 0, 512); // held: 2 lacks one
    let two = [&one[..], &[cleared(512, [2, 2, 0, 0, 1])]].concat();
    c.movement([0, CLEAR, NONE, 0], &k, &journal(&two), 0, 512); // clear
    let lesser = [&one[..], &[cleared(512, [2, 7, 0, 0, 1])]].concat();
    c.movement([0, DANGER, NONE, 0], &k, &journal(&lesser), 0, 512); // danger
    let next = [&two[..], &[ordered(512, 1), passed(512), movement_asked(513, 0)]].concat();
    c.movement([0, HELD, 0, 2], &k, &journal(&next), 0, 513); // the next train: held again
    c.movement([15, HELD, NONE, 0], &k, &journal(&next), 0, 512); // the train before is gone

    // Records that do not read inside a journal.
    let mut bytes: Vec<[u8; 32]> = records.iter().map(Message::to_bytes).collect();
    bytes[2][0] = 0;
    bytes[4] = [255; 32];
    c.replay(0, &k, &journal_of(&bytes)); // two kinds gone bad: 11
    bytes[5][31] = 2;
    c.replay(19, &k, &journal_of(&bytes)); // and a field: 13; the train is never ordered
    bytes[1][9] = 8;
    c.replay(18, &k, &journal_of(&bytes)); // and an id: the work is never agreed
    c.work([0, 0], &k, &journal_of(&bytes), 0); // never open
    c.list(13, &k, &[recorder(1).at(50), recorder(2).in_zone(9)]); // 13 before 12 and 14
    c.replay(11, &k, &journal_of(&[[0; 32]; 3])); // zeros

    // The largest station, several zones.
    let large = largest_station().bytes();
    let station = sheet::read(&large).expect("the largest station reads");
    assert_eq!((station.turnouts.len(), station.routes.len(), station.zones), (64, 64, 8));
    c.sheet(0, 0, &large); // good
    c.sheet(1, 0, &large[..large.len() - 1]); // one byte short
    let mut damaged = large.clone();
    damaged[8 + 3 * 63 + 2] = 2;
    c.sheet(5, 63, &damaged); // the last turnout bad
    let mut damaged = large.clone();
    let last = large.len() - 33;
    damaged[last] = 0;
    c.sheet(6, 63, &damaged); // the last route bad
    let talk = several_zones();
    c.state_minutes(&[2, 2], &large, &talk); // 121 and 119 seconds
    c.replay(0, &large, &journal(&talk)); // the whole conversation
    let middle = journal(&talk[..16]);
    c.movement([0, HELD, 4, 1], &large, &middle, 0, 900); // held by turnout 4
    c.movement([0, HELD, 61, 1], &large, &middle, 7, 900); // held by turnout 61
    c.movement([0, CLEAR, NONE, 0], &large, &middle, 3, 901); // clear
    c.movement([0, DANGER, NONE, 0], &large, &journal(&talk[..21]), 7, 900); // danger
    c.work([0, 0], &large, &middle, 0); // shut by its clearance
    c.work([0, 1], &large, &middle, 4); // open
    c.work([0, 1], &large, &middle, 63); // open, the highest turnout
    let all: Vec<u8> = (56..64).collect();
    let whole = [
        work_asked(u32::MAX, 1, &all).in_zone(7),
        agreed(u32::MAX).in_zone(7),
        detection_off(u32::MAX, &all[..4], &all[4..]).in_zone(7),
        movement_asked(u32::MAX, 59).in_zone(7),
    ];
    c.movement([0, HELD, 56, 8], &large, &journal(&whole), 7, u32::MAX); // eight lack one
    c.work([0, 1], &large, &journal(&whole), 63); // open through b
}
