//! Cases of lists on a station with groups of three, two and eight: works, parts of works, clearances, keys.
//! KIND-1.2, KIND-4.2, KIND-10.2, KIND-13.5, FIT-4, HIST-7.

use crate::cases::Cases;
use crate::scenes::*;
use reference::builders::*;
use reference::message::Message;

/// The groups of the station; 13 is alone.
const THREE: [u8; 3] = [0, 1, 2];
const EIGHT: [u8; 8] = [5, 6, 7, 8, 9, 10, 11, 12];

pub fn add(cases: &mut Cases) {
    let sheet = group_station().bytes();
    work_asked_for(cases, &sheet);
    parts_restored(cases, &sheet);
    detection_off_for_a_part(cases, &sheet);
    covers(cases, &sheet);
    each_its_own(cases, &sheet);
    keys(cases, &sheet);
    station_k_by_groups(cases);
}

fn asked(turnouts: &[u8]) -> Message {
    work_asked(FORM, VERBAL, turnouts)
}

fn restored(turnouts: &[u8]) -> Message {
    part_restored(FORM, turnouts)
}

/// KIND-1.2: 17 where "a .. splits a group".
fn work_asked_for(c: &mut Cases, sheet: &[u8]) {
    let parts = [&[0][..], &[0, 1], &[2, 13], &[3], &[4, 0, 1, 2], &EIGHT[..7], &EIGHT[1..], &[0, 1, 2, 12]].map(asked);
    let whole: Vec<u8> = [&THREE[..], &EIGHT].concat();
    c.codes(&[17, 17, 17, 17, 17, 17, 17, 17, 0], sheet, &then(parts.to_vec(), &[asked(&whole)])); // then whole
    let whole = [&THREE[..], &EIGHT, &[3, 4], &[13], &[0, 1, 2, 3, 4, 13]].map(asked);
    let in_turn: Vec<Message> = whole.into_iter().flat_map(|asked| [asked, withdrawn(FORM)]).collect();
    c.list(0, sheet, &in_turn); // each group alone, one turnout alone, several
}

/// KIND-10.2: 17 where a "splits a group".
fn parts_restored(c: &mut Cases, sheet: &[u8]) {
    let all: Vec<u8> = (0..14).collect();
    let parts = [&[0][..], &[1, 2], &[3], &EIGHT[..7], &EIGHT[7..], &[0, 1, 2, 4], &THREE, &[3, 4, 13], &EIGHT];
    // Parts of each group, a whole one with a part of another, then whole ones; the last is all that is left.
    c.codes(&[0, 0, 17, 17, 17, 17, 17, 17, 0, 0, 17], sheet, &then(work(VERBAL, &all), &parts.map(restored)));
}

/// KIND-4.2: "A part of a group may be named alone."
fn detection_off_for_a_part(c: &mut Cases, sheet: &[u8]) {
    let open = then(work(M45, &THREE), &[detection_off(FORM, &[1], &[2])]);
    c.list(0, sheet, &open); // two of three
    c.work([0, 0], sheet, &journal(&open), 0); // the third is not open
    c.work([0, 1], sheet, &journal(&open), 2); // the second is
}

/// FIT-4: "with declaration 1 or 2 on a turnout of a group, of whatever size, d5 is 1; in every other clearance d5 is
/// 0".
fn covers(c: &mut Cases, sheet: &[u8]) {
    let all: Vec<u8> = (0..14).collect();
    let of = |turnout: u8, declaration: u8, position: u8| cleared(TRAIN, [turnout, declaration, position, 0, VOICE]);
    let due = [(0, 0), (1, 1), (3, 0), (6, 1)].map(|(turnout, position)| {
        [of(turnout, 1, position), of(turnout, 1, position).d(5, 2), of(turnout, 2, position).whole_group()]
    });
    let list = then(work_and_train(M45, &all, 0), &due.concat());
    // Groups of three, two and eight: 0, 2 and 1.
    c.codes(&[0, 0, 0, 20, 13, 0, 20, 13, 0, 20, 13, 0, 20, 13, 0], sheet, &list);
    let not_due = [of(5, 7, 0).whole_group(), of(5, 7, 0), of(13, 1, 0).whole_group(), of(13, 1, 0)];
    // Declaration 7 in a group of eight, and a turnout alone: 1 and 0.
    c.codes(&[0, 0, 0, 20, 0, 20, 0], sheet, &then(work_and_train(M45, &all, 0), &not_due));
}

/// FIT-4: "each other turnout of it still needs a clearance of its own". Route 1 has the group of three as flank.
fn each_its_own(c: &mut Cases, sheet: &[u8]) {
    let mut list = work_and_train(M45, &THREE, 1);
    for turnout in THREE {
        c.movement([0, HELD, turnout, 3 - turnout], sheet, &journal(&list), 0, TRAIN); // those still lacking
        list.push(cleared(TRAIN, [turnout, 1, u8::from(turnout == 0), 0, VOICE]).whole_group());
    }
    c.movement([0, CLEAR, NONE, 0], sheet, &journal(&list), 0, TRAIN); // none lacks, all efficient
    c.list(0, sheet, &then(list, &[ordered(TRAIN, CLEAR)])); // ordered clear
}

/// KIND-13.5: "The key covers the turnout that it names, not the others of its group."
fn keys(c: &mut Cases, sheet: &[u8]) {
    let keyed = then(work_and_train(M45, &THREE, 1), &[key_used(TRAIN, 1, 1)]);
    c.movement([0, HELD, 0, 2], sheet, &journal(&keyed), 0, TRAIN); // two of three lack
}

/// K-1: station K by a sheet of version 2 answers its journal alike.
fn station_k_by_groups(c: &mut Cases) {
    for sheet in [station_k(), station_k_in_version_2()] {
        c.codes(&[0, 0, 0, 0, 22, 0, 22, 0, 19, 0, 0], &sheet.bytes(), &journal_k());
        // K-2
    }
    c.codes(&[17, 0], &station_k_in_version_2().bytes(), &[asked(&[0]), asked(&[0, 1])]);
    // K-4
}
