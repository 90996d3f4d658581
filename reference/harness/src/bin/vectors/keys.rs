//! Cases of kind 13, key used, and of 23. KIND-13.4: "by Tcl or Es where it is flank, by Es where it is in the exit
//! zone".

use crate::cases::Cases;
use crate::scenes::*;
use crate::sheets::two_zones;
use reference::builders::*;
use reference::message::Message;

const TCL: u8 = 1;
const ES: u8 = 2;

fn tcl(turnout: u8) -> Message {
    key_used(TRAIN, turnout, TCL)
}

fn es(turnout: u8) -> Message {
    key_used(TRAIN, turnout, ES)
}

/// Work agreed, its detection off, then a movement over route 0.
fn open_work(turnouts: &[u8]) -> Vec<Message> {
    then(work(M45, turnouts), &[detection_off(FORM, turnouts, &[]), movement_asked(TRAIN, 0)])
}

/// The station with an exit zone, all of it at work.
fn all_at_work() -> Vec<Message> {
    open_work(&[0, 1, 2, 3, 4, 5])
}

/// There, the run-over turnouts cleared, the second with this declaration.
fn run_over(declaration: u8) -> [Message; 2] {
    [cleared(TRAIN, [0, 1, 0, 0, VOICE]).whole_group(), cleared(TRAIN, [5, declaration, 0, 0, VOICE])]
}

pub fn add(cases: &mut Cases) {
    let (k, exit) = (station_k().bytes(), exit_zone_station().bytes());
    records(cases, &k);
    flank(cases, &k);
    next_train(cases, &k);
    places(cases, &k, &exit);
    regimes(cases, &exit);
    open_and_cleared(cases, &exit);
    order_of_checks(cases, &k, &exit);
    highest(cases);
}

/// Records read, written, added and heard: 13 for each field.
fn records(c: &mut Cases, k: &[u8]) {
    let key = key_used(0x0102_0304, 63, ES).at(0x0506_0708).in_zone(0xFE);
    c.record(0, &key.to_bytes()); // the highest turnout, Es
    c.record(0, &key_used(1, 0, TCL).to_bytes()); // the lowest turnout, Tcl
    c.record(13, &Message { id: 0, ..key }.to_bytes()); // no train
    c.record(13, &key.d(0, 64).to_bytes()); // turnout 64
    c.record(13, &key.d(1, 0).to_bytes()); // no key
    c.record(13, &key.d(1, 3).to_bytes()); // key 3
    c.record(11, &Message { kind: 14, ..key }.to_bytes()); // the kind after it
    let named = [Message { id: 0, ..tcl(2) }, tcl(64), tcl(255), tcl(2).d(1, 0), tcl(2).d(1, 3), tcl(2).d(1, 255)];
    let unnamed = [tcl(2).a(&[2]), tcl(2).b(&[63]), tcl(2).d(2, 1), tcl(2).d(3, 1), tcl(2).d(4, 1), tcl(2).d(5, 1)];
    c.refused(13, k, &open_work(&[2]), &[named, unnamed].concat()); // each field heard
    c.write(0, &key, &[0xAA; 32]); // written
    c.write(13, &key.d(1, 3), &[0xAA; 32]); // not written
    let room = [journal(&[]), vec![0x5A; 32]].concat();
    c.journal_add(0, &room, &key.to_bytes()); // added
    c.journal_add(13, &room, &key.d(2, 1).to_bytes()); // not added
}

/// Station K, turnout 2, flank, at work.
fn flank(c: &mut Cases, k: &[u8]) {
    let clearance = cleared(TRAIN, [2, 1, 0, 0, VOICE]);
    let talk = [es(0), ordered(TRAIN, CLEAR), tcl(2), tcl(2), es(2), clearance, ordered(TRAIN, CLEAR), tcl(2)];
    // Not worked; held; a key; a second; the other; a clearance over it; clear; a key once ordered.
    c.codes(&[0, 0, 0, 0, 17, 22, 0, 16, 16, 16, 0, 16], k, &then(open_work(&[2]), &talk));
    let keyed = journal(&then(open_work(&[2]), &[tcl(2)]));
    c.movement([0, CLEAR, NONE, 0], k, &keyed, 0, TRAIN); // a key alone: none lacks, clear
    c.work([0, 1], k, &keyed, 2); // still open to work
}

/// KIND-8.3, KIND-9.3: "Keys lapse when the train passes or the movement is cancelled."
fn next_train(c: &mut Cases, k: &[u8]) {
    let keyed = then(open_work(&[2]), &[tcl(2)]);
    let passed = then(keyed.clone(), &[ordered(TRAIN, CLEAR), passed(TRAIN), movement_asked(513, 0)]);
    c.movement([0, HELD, 2, 1], k, &journal(&passed), 0, 513); // passed: the next train lacks it again
    c.work([0, 1], k, &journal(&passed), 2); // and it is still open
    let cancelled = then(keyed, &[cancelled(TRAIN), movement_asked(TRAIN, 0)]);
    c.movement([0, HELD, 2, 1], k, &journal(&cancelled), 0, TRAIN); // cancelled: the same train lacks it again
    c.list(0, k, &then(cancelled, &[cleared(TRAIN, [2, 8, 0, 0, VOICE])])); // and a clearance is no 16
}

/// 23 by place and key.
fn places(c: &mut Cases, k: &[u8], exit: &[u8]) {
    c.refused(23, k, &open_work(&[0, 1]), &[es(0), tcl(0)]); // station K, run over
    c.movement([0, HELD, 0, 1], k, &journal(&then(open_work(&[0, 1]), &[es(0)])), 0, TRAIN); // it lacks as before
    let keys = [tcl(4), es(4), tcl(2), es(3), tcl(0), es(0), tcl(5), es(5)];
    // Exit zone by each key, flank by each, both run over by each.
    c.codes(&[0, 0, 0, 0, 23, 0, 0, 0, 23, 23, 23, 23], exit, &then(all_at_work(), &keys));
    c.codes(&[0, 0, 0, 0, 0, 0], exit, &then(all_at_work(), &[es(2), tcl(3)])); // flank, the keys changed
}

/// Lacking and regime with keys and clearances side by side.
fn regimes(c: &mut Cases, exit: &[u8]) {
    let mut movement = |stated: [u8; 4], more: &[Message]| {
        c.movement(stated, exit, &journal(&then(all_at_work(), more)), 0, TRAIN);
    };
    movement([0, HELD, 0, 4], &[tcl(2)]); // the key covers 2, not its partner 3
    movement([0, HELD, 0, 2], &[es(4), tcl(2), es(3)]); // run over left
    let keys = [tcl(2), es(3), es(4)];
    movement([0, HELD, 3, 2], &[&run_over(1)[..], &keys[..1]].concat()); // flank and exit zone left
    movement([0, CLEAR, NONE, 0], &[&run_over(2)[..], &keys].concat()); // all efficient or with a key
    movement([0, DANGER, NONE, 0], &[&run_over(3)[..], &keys].concat()); // one declared 3 beside the keys
    let danger = then(then(all_at_work(), &keys), &run_over(3));
    let orders = [ordered(TRAIN, CLEAR), ordered(TRAIN, DANGER), all_restored(FORM)];
    let codes = [vec![0; danger.len()], vec![22, 0, 19]].concat();
    c.codes(&codes, exit, &then(danger, &orders)); // no clear order; danger; no end of work before the train
}

/// A key clears, opens and shuts nothing; a cleared turnout takes no key.
fn open_and_cleared(c: &mut Cases, exit: &[u8]) {
    let quiet = then(work_and_train(M45, &[2, 3, 4], 0), &[tcl(2), es(4)]);
    c.work([0, 0], exit, &journal(&quiet), 2); // not opened
    let off = detection_off(FORM, &[2], &[4]);
    let clearance = cleared(TRAIN, [3, 5, 0, 0, VOICE]);
    let talk = [off, clearance, tcl(3), es(3), detection_off(FORM, &[2, 3], &[]), off];
    // Kind 4 naming keyed turnouts; a clearance; keys on it; kind 4 naming it; naming the keyed ones again.
    c.codes(&[0, 0, 0, 0, 0, 0, 0, 16, 16, 19, 0], exit, &then(quiet.clone(), &talk));
    c.work([0, 1], exit, &journal(&then(quiet, &[off])), 4); // opened by kind 4
}

/// 11, 13, 12, 14, 15, 16, 17, 23; no 20, no 21.
fn order_of_checks(c: &mut Cases, k: &[u8], exit: &[u8]) {
    let other = |turnout: u8| key_used(513, turnout, TCL).at(10);
    let list = then(all_at_work(), &[run_over(1)[0].at(10), tcl(2).at(10)]);
    let tried = [
        Message { kind: 14, ..tcl(64).in_zone(1) }, // 11 before 13
        tcl(64).in_zone(1),                         // 13 before 12
        tcl(5).in_zone(1).at(9),                    // 12 before 14
        other(5).at(9),                             // 14 before 15
        other(2),                                   // 15 before 16, a key
        other(0),                                   // 15 before 16, a clearance
        other(1),                                   // 15 before 17
        other(5),                                   // 15 before 23
        tcl(0).at(10),                              // 16 before 23
        tcl(1).at(10),                              // 17, not named
        es(5).at(10),                               // 23
    ];
    let codes = [11, 13, 12, 14, 15, 15, 15, 15, 16, 17, 23];
    c.codes(&[vec![0; list.len()], codes.to_vec()].concat(), exit, &then(list, &tried));
    c.refused(17, k, &open_work(&[2]), &[tcl(0), es(0), es(1), es(3), tcl(63)]); // 17 before 23, not worked or named
    c.refused(17, k, &[movement_asked(TRAIN, 0), work_asked(FORM, M45, &[2])], &[tcl(2)]); // work only asked
    c.list(0, k, &then(open_work(&[2]), &[recorder(0), es(2)])); // the recorder out: no 21
    let both = [movement_asked(TRAIN, 0), key_used(TRAIN, 6, ES).in_zone(1)];
    c.list(15, &two_zones().bytes(), &both); // the train stands in another zone
}

/// 64 turnouts: turnout 63 flank, 62 exit zone.
fn highest(c: &mut Cases) {
    let sheet = plain_station(64, 0).route(0, &[0], &[63], &[62], &[]).bytes();
    let keyed = then(open_work(&[62, 63]), &[tcl(63), tcl(62), es(62), es(61)]);
    c.codes(&[0, 0, 0, 0, 0, 23, 0, 17], &sheet, &keyed); // flank; exit zone by each key; not worked
    c.movement([0, HELD, 62, 1], &sheet, &journal(&keyed[..6]), 0, TRAIN); // 62 left
    c.movement([0, CLEAR, NONE, 0], &sheet, &journal(&keyed), 0, TRAIN); // none left
}
