//! Groups of two, three and eight on the whole desk: works, parts of works, detection off, clearances, history.
//! KIND-1.2, KIND-4.2, KIND-10.2, FIT-4, HIST-7.

use reference::builders::*;
use reference::desk::Desk;
use reference::drafts::Sheet;
use reference::history::History;
use reference::message::Message;
use reference::movement::Regime;
use reference::refusal::number;
use reference::sheet;
use reference::station::{Drive, Station, Turnout};

const FORM: u32 = 7;
const TRAIN: u32 = 512;
const VERBAL: u8 = 2;

fn station(sheet: &Sheet) -> Station {
    sheet::read(&sheet.bytes()).expect("a good sheet")
}

/// The code of the last message on a fresh desk; those before it are accepted.
fn last_code(station: &Station, messages: &[Message]) -> u8 {
    let mut desk = Desk::fresh(station);
    let (last, before) = messages.split_last().expect("a message");
    for message in before {
        assert_eq!(number(&desk.hear(message)), 0, "{message:?}");
    }
    number(&desk.hear(last))
}

fn with(list: &[Message], more: &[Message]) -> Vec<Message> {
    [list, more].concat()
}

fn agreed_on(turnouts: &[u8]) -> Vec<Message> {
    vec![work_asked(FORM, VERBAL, turnouts), agreed(FORM)]
}

/// KIND-1.2: 17 where "a .. splits a group".
#[test]
fn work_asked_for_a_part() {
    let tied = station(&group_station());
    let asked = |turnouts: &[u8]| last_code(&tied, &[work_asked(FORM, 1, turnouts)]);
    let whole: [&[u8]; 6] =
        [&[0, 1, 2], &[3, 4], &[5, 6, 7, 8, 9, 10, 11, 12], &[13], &[0, 1, 2, 13], &[0, 1, 2, 3, 4]];
    for turnouts in whole {
        assert_eq!(asked(turnouts), 0, "{turnouts:?}");
    }
    let parts: [&[u8]; 7] =
        [&[0], &[0, 1], &[1, 2, 13], &[3], &[5, 6, 7, 8, 9, 10, 11], &[0, 1, 2, 4], &[6, 7, 8, 9, 10, 11, 12]];
    for turnouts in parts {
        assert_eq!(asked(turnouts), 17, "{turnouts:?}");
    }
}

/// KIND-10.2: 17 where a "splits a group".
#[test]
fn part_restored_of_a_group() {
    let tied = station(&group_station());
    let work = agreed_on(&[0, 1, 2, 5, 6, 7, 8, 9, 10, 11, 12, 13]);
    let restored = |part: &[u8]| last_code(&tied, &with(&work, &[part_restored(FORM, part)]));
    assert_eq!([restored(&[0, 1, 2]), restored(&[13]), restored(&[5, 6, 7, 8, 9, 10, 11, 12])], [0; 3]);
    for part in [&[0][..], &[1, 2], &[0, 1, 13], &[5, 6, 7, 8, 9, 10, 11], &[12], &[0, 1, 2, 12]] {
        assert_eq!(restored(part), 17, "{part:?}");
    }
}

/// KIND-4.2: "A part of a group may be named alone."
#[test]
fn detection_off_for_a_part() {
    let tied = station(&group_station());
    for part in [&[0][..], &[0, 2], &[0, 1, 2]] {
        assert_eq!(last_code(&tied, &with(&agreed_on(&[0, 1, 2]), &[detection_off(FORM, part, &[])])), 0, "{part:?}");
    }
}

/// FIT-4: "with declaration 1 or 2 on a turnout of a group, of whatever size, d5 is 1; in every other clearance d5 is
/// 0".
#[test]
fn clearances_of_groups() {
    let tied = station(&group_station());
    let all: Vec<u8> = (0..14).collect();
    let standing = |route: u8| with(&agreed_on(&all), &[movement_asked(TRAIN, route)]);
    // Route 0: the groups of three (0, and 1 in the exit zone), of two (3, 4), of eight (5, 6); 13 alone.
    let named = [(0, 0, true), (1, 1, true), (3, 0, true), (4, 0, true), (5, 0, true), (6, 1, true), (13, 0, false)];
    for (turnout, position, in_group) in named {
        for declaration in [1, 2] {
            let clearance = cleared(TRAIN, [turnout, declaration, position, 0, 1]);
            let codes = [0, 1, 2].map(|d5| last_code(&tied, &with(&standing(0), &[clearance.d(5, d5)])));
            assert_eq!(codes, if in_group { [20, 0, 13] } else { [0, 20, 13] }, "turnout {turnout}");
        }
    }
    for (turnout, declaration) in [(0, 7), (5, 7), (3, 3), (13, 3)] {
        let clearance = cleared(TRAIN, [turnout, declaration, 0, 0, 1]);
        let codes = [0, 1].map(|d5| last_code(&tied, &with(&standing(0), &[clearance.d(5, d5)])));
        assert_eq!(codes, [0, 20], "turnout {turnout}");
    }
    // Each turnout of a group of three needs its own clearance: route 1 has 0, 1 and 2 in its flank, 0 reverse.
    let mut list = with(&agreed_on(&[0, 1, 2]), &[movement_asked(TRAIN, 1)]);
    for (turnout, lacking) in [(0, 3), (1, 2), (2, 1)] {
        let mut desk = Desk::fresh(&tied);
        assert!(list.iter().all(|message| desk.hear(message).is_ok()));
        let answer = desk.movement_question(0, TRAIN).expect("stands");
        assert_eq!((answer.regime, answer.lowest, answer.count), (Regime::Held, Some(turnout), lacking));
        list.push(cleared(TRAIN, [turnout, 1, u8::from(turnout == 0), 0, 1]).whole_group());
    }
    assert_eq!(last_code(&tied, &with(&list, &[ordered(TRAIN, 1)])), 0);
}

/// HIST-7: "on a turnout of a group, d5 1".
#[test]
fn good_clearances_in_the_history() {
    let tied = station(&group_station());
    let good = |turnout: u8, declaration: u8, d5: u8| {
        let clearance = cleared(TRAIN, [turnout, declaration, 0, 0, 1]).d(5, d5);
        History(&[movement_asked(TRAIN, 0), clearance]).good_clearance(&tied, turnout)
    };
    for turnout in [0, 3, 5] {
        assert_eq!([good(turnout, 1, 0), good(turnout, 1, 1), good(turnout, 2, 1)], [false, true, true]);
        assert!(!good(turnout, 3, 1));
    }
    assert!(good(13, 1, 0));
}

/// VALUE-2, on stations that no sheet gave: number 40, a lone number, a group of nine over two zones.
#[test]
fn odd_stations() {
    let turnout = |zone, group| Turnout { zone, group: Some(group), drive: Drive::Hand };
    let mut turnouts = vec![turnout(0, 40), turnout(0, 40), turnout(0, 5)];
    turnouts.extend((0..9).map(|n| turnout(u8::from(n == 8), 6)));
    let odd = Station { zones: 2, turnouts, routes: Vec::new() };
    let asked = |turnouts: &[u8]| last_code(&odd, &[work_asked(FORM, 1, turnouts)]);
    assert_eq!([asked(&[0]), asked(&[0, 1]), asked(&[2])], [0; 3]);
    // Turnouts 3 to 10 are of zone 0, 11 of zone 1: the group is taken by no work.
    assert_eq!([asked(&[3]), asked(&[3, 4, 5, 6, 7, 8, 9, 10]), asked(&[3, 4, 5, 6, 7, 8, 9, 10, 11])], [17; 3]);
    assert_eq!(last_code(&odd, &[work_asked(FORM, 1, &[11]).in_zone(1)]), 17);
    assert_eq!([0, 1, 2, 3, 11, 12].map(|n| odd.in_group(n)), [false, false, false, true, true, false]);
}
