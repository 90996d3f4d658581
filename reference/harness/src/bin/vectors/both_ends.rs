//! Cases of d5 in a clearance on a crossover, a group of two: whether its declaration covers both ends. FIT-4.

use crate::cases::Cases;
use crate::scenes::*;
use crate::sheets::two_zones;
use reference::builders::*;
use reference::message::Message;

/// Station K, turnout 0 run over: one end of an electric crossover.
fn crossover() -> Vec<Message> {
    work_and_train(M45, &[0, 1], 0)
}

/// Station K, turnout 2 flank: alone, by hand.
fn alone() -> Vec<Message> {
    work_and_train(VERBAL, &[2], 0)
}

/// A clearance by voice of turnout 0, or 2, of station K.
fn of(turnout: u8, declaration: u8, clamp: u8) -> Message {
    cleared(TRAIN, [turnout, declaration, 0, clamp, VOICE])
}

pub fn add(cases: &mut Cases) {
    let k = station_k().bytes();
    on_a_crossover(cases, &k);
    alone_by_hand(cases, &k);
    above_1(cases, &k);
    order_of_checks(cases, &k);
    other_kinds(cases, &k);
    records(cases);
    both_named(cases);
}

/// FIT-4: "with declaration 1 or 2 on a turnout of a group .. d5 is 1". Larger groups stand in `group_lists`.
fn on_a_crossover(c: &mut Cases, k: &[u8]) {
    c.list(20, k, &then(crossover(), &[of(0, 1, 0)])); // declaration 1, one end
    c.list(0, k, &then(crossover(), &[of(0, 1, 0).whole_group()])); // declaration 1, both
    c.list(0, k, &then(crossover(), &[of(0, 2, 0).whole_group()])); // declaration 2, both
    c.list(20, k, &then(crossover(), &[of(0, 2, 0)])); // declaration 2, one end
    c.list(20, k, &then(crossover(), &[of(0, 3, 0).whole_group()])); // declaration 3, both
    c.list(0, k, &then(crossover(), &[of(0, 3, 0)])); // declaration 3, one end
    let lesser = [of(0, 3, 0), of(0, 4, 1), of(0, 5, 0), of(0, 6, 1)];
    c.refused(20, k, &crossover(), &lesser.map(Message::whole_group)); // each declaration that lacks something, both
    let corrected = [of(0, 1, 0), of(0, 3, 0).whole_group(), of(0, 1, 0).whole_group(), ordered(TRAIN, CLEAR)];
    c.codes(&[0, 0, 0, 20, 20, 0, 0], k, &then(crossover(), &corrected)); // refused twice, then right, then ordered

    for declaration in [1, 2] {
        let covered = then(crossover(), &[of(0, declaration, 0).whole_group()]);
        c.movement([0, CLEAR, NONE, 0], k, &journal(&covered), 0, TRAIN); // clear after it
    }
    let one_end = then(crossover(), &[of(0, 1, 0)]);
    c.movement([0, HELD, 0, 1], k, &journal(&one_end), 0, TRAIN); // held after the refused one
    let lesser = then(crossover(), &[of(0, 3, 0)]);
    c.movement([0, DANGER, NONE, 0], k, &journal(&lesser), 0, TRAIN); // danger after declaration 3

    let open = then(crossover(), &[detection_off(FORM, &[0, 1], &[])]);
    c.work([0, 1], k, &journal(&then(open.clone(), &[of(0, 1, 0)])), 0); // the refused one shuts nothing
    let covered = journal(&then(open, &[of(0, 1, 0).whole_group()]));
    c.work([0, 0], k, &covered, 0); // shut by its clearance
    c.work([0, 1], k, &covered, 1); // the other end is still open: a clearance is judged alone
}

/// FIT-4: "In every other clearance d5 is 0."
fn alone_by_hand(c: &mut Cases, k: &[u8]) {
    c.list(20, k, &then(alone(), &[of(2, 1, 0).whole_group()])); // declaration 1, both
    c.list(0, k, &then(alone(), &[of(2, 1, 0)])); // declaration 1
    c.list(20, k, &then(alone(), &[of(2, 8, 0).whole_group()])); // declaration 8, both
    c.list(0, k, &then(alone(), &[of(2, 8, 0)])); // declaration 8
    let others = [of(2, 2, 0), of(2, 7, 0), of(2, 9, 0)];
    c.refused(20, k, &alone(), &others.map(Message::whole_group)); // the others that fit a hand drive, both
    c.movement([0, CLEAR, NONE, 0], k, &journal(&then(alone(), &[of(2, 1, 0)])), 0, TRAIN); // clear after declaration 1
    let both_ends = journal(&then(alone(), &[of(2, 1, 0).whole_group()]));
    c.movement([0, HELD, 2, 1], k, &both_ends, 0, TRAIN); // held after the refused one
}

/// FIT-4: "a d5 above 1 gets 13".
fn above_1(c: &mut Cases, k: &[u8]) {
    c.list(13, k, &then(crossover(), &[of(0, 1, 0).d(5, 2)])); // on a crossover
    c.list(13, k, &then(alone(), &[of(2, 1, 0).d(5, 2)])); // alone
    let more = [of(0, 1, 0).d(5, 3), of(0, 1, 0).d(5, 129), of(0, 1, 0).d(5, 255), of(0, 3, 0).d(5, 2)];
    c.refused(13, k, &crossover(), &more); // other numbers, another declaration
}

/// 13, 12, 14, 15, 16 and 17 before 20; 20 before 21.
fn order_of_checks(c: &mut Cases, k: &[u8]) {
    let wrong = of(0, 1, 0);
    let before = [
        wrong.d(5, 2).in_zone(1),     // above 1, and in no zone of the station: 13
        wrong.in_zone(1),             // wrong, in no zone of the station: 12
        Message { id: 513, ..wrong }, // wrong, another train: 15
        recorder(1).at(10),           // accepted
        wrong.at(9),                  // wrong, too early: 14
    ];
    c.codes(&[0, 0, 0, 13, 12, 15, 0, 14], k, &then(crossover(), &before)); // what comes before 16
    c.list(17, k, &then(crossover(), &[of(1, 1, 0)])); // wrong, not named: 17
    let unnamed =
        [of(1, 1, 0).whole_group(), of(1, 3, 0).whole_group(), of(3, 1, 0).whole_group(), of(63, 1, 0).whole_group()];
    c.refused(17, k, &crossover(), &unnamed); // right, not named; another declaration; turnout P; turnout 63
    c.list(17, k, &then(alone(), &[wrong])); // wrong, not under work: 17
    c.list(17, k, &then(crossover(), &[of(2, 1, 0).whole_group()])); // the same, alone: 17
    let covered = then(crossover(), &[wrong.whole_group()]);
    c.refused(16, k, &covered, &[wrong, wrong.whole_group()]); // wrong and right, cleared already: 16
    c.list(16, k, &then(alone(), &[of(2, 1, 0), of(2, 1, 0).whole_group()])); // the same, alone: 16
    c.list(20, k, &then(crossover(), &[wrong.d(4, WRITTEN)])); // wrong, the medium too: 20
    c.list(20, k, &then(alone(), &[of(2, 1, 0).whole_group().d(4, WRITTEN)])); // the same, alone: 20
    c.list(21, k, &then(crossover(), &[wrong.whole_group().d(4, WRITTEN)])); // right, the medium wrong: 21
    c.list(20, k, &then(crossover(), &[wrong.whole_group().d(2, 1)])); // right, another position: 20
}

/// In every other kind d5 stays 0.
fn other_kinds(c: &mut Cases, k: &[u8]) {
    let others = one_of_each(&[0, 1]).into_iter().filter(|message| message.kind != 6);
    let wrong: Vec<Message> = others.map(|message| message.d(5, 1)).collect();
    c.refused(13, k, &crossover(), &wrong); // each of them
}

/// Records read, written and added.
fn records(c: &mut Cases) {
    let clearance = cleared(0x0102_0304, [63, 2, 1, 0, WRITTEN]).at(0x0506_0708).in_zone(0xFE);
    c.record(0, &clearance.whole_group().to_bytes()); // d5 1 reads
    c.record(0, &clearance.d(1, 9).whole_group().to_bytes()); // with any declaration: the record knows no station
    c.record(13, &clearance.d(5, 255).to_bytes()); // d5 255 does not
    c.record(13, &passed(TRAIN).d(5, 1).to_bytes()); // nor d5 1 in another kind
    c.write(0, &clearance.whole_group(), &[0xAA; 32]); // written
    c.write(13, &clearance.d(5, 2), &[0xAA; 32]); // not written
    c.write(13, &all_restored(FORM).d(5, 1), &[0xAA; 32]); // not written, another kind
    let room = [journal(&[]), vec![0x5A; 32]].concat();
    c.journal_add(0, &room, &clearance.whole_group().to_bytes()); // added
    c.journal_add(13, &room, &clearance.d(5, 2).to_bytes()); // not added
    c.journal_add(13, &room, &agreed(FORM).d(5, 1).to_bytes()); // not added, another kind
}

/// FIT-4: "each turnout still needs its own clearance, judged alone". Both ends of two crossovers named: 0 and 1 run
/// over, 2 and 3 flank; 4, alone, is the exit zone.
fn both_named(c: &mut Cases) {
    let sheet = two_zones().bytes();
    let list = work_and_train(M45, &[0, 1, 2, 3, 4], 0);
    let run_over = |turnout: u8| cleared(TRAIN, [turnout, 1, 1, 0, VOICE]);
    let beside = |turnout: u8| cleared(TRAIN, [turnout, 2, 0, 0, VOICE]);
    let one = then(list, &[run_over(0).whole_group()]);
    c.movement([0, HELD, 1, 4], &sheet, &journal(&one), 0, TRAIN); // the other end lacks its own
    let unfit = [run_over(1), beside(2), beside(3), beside(4).whole_group()];
    c.refused(20, &sheet, &one, &unfit); // run over, flank, flank; alone
    let ends = [run_over(1), beside(2), beside(3)].map(Message::whole_group);
    let all = then(then(one.clone(), &ends), &[beside(4)]);
    c.movement([0, CLEAR, NONE, 0], &sheet, &journal(&all), 0, TRAIN); // clear
    let mixed = then(then(one, &ends[..2]), &[beside(3).d(1, 5), beside(4)]);
    c.movement([0, DANGER, NONE, 0], &sheet, &journal(&mixed), 0, TRAIN); // one end efficient, the other not: danger
}
