//! Cases of movements: kinds 5 and 7 to 9, asked, ordered, passed, cancelled.

use super::{asked, clear_2, cleared_2, danger_2, two};
use crate::cases::Cases;
use crate::scenes::*;
use reference::builders::*;

/// Kind 5, movement asked.
pub fn kind_5(c: &mut Cases, y: &[u8]) {
    c.list(0, y, &then(work(M45, &[2]), &[movement_asked(TRAIN, 0)])); // over turnouts at work
    c.list(0, y, &[movement_asked(TRAIN, 0), movement_asked(TRAIN, 1).in_zone(1)]); // one in each zone, one train
    c.list(16, y, &[movement_asked(TRAIN, 0), movement_asked(513, 0)]); // movement in the zone
    c.list(16, y, &[movement_asked(TRAIN, 0), movement_asked(TRAIN, 63)]); // 16 before 17
    c.refused(17, y, &[], &[movement_asked(TRAIN, 1), movement_asked(TRAIN, 0).in_zone(1)]); // route of another zone
    c.refused(17, y, &[], &[movement_asked(TRAIN, 4), movement_asked(TRAIN, 63)]); // route R, route 63
    c.list(0, y, &[movement_asked(TRAIN, 0)]); // accepted
}

/// Kind 7, ordered.
pub fn kind_7(c: &mut Cases, y: &[u8]) {
    c.list(15, y, &then(two(), &[ordered(513, CLEAR)])); // 15 before 22
    c.refused(22, y, &two(), &[ordered(TRAIN, CLEAR), ordered(TRAIN, DANGER)]); // held
    c.list(22, y, &then(danger_2(), &[ordered(TRAIN, CLEAR)])); // danger
    c.list(0, y, &then(danger_2(), &[ordered(TRAIN, DANGER)])); // danger, ordered so
    c.list(0, y, &then(clear_2(), &[ordered(TRAIN, CLEAR)])); // clear, ordered so
    c.list(0, y, &then(clear_2(), &[ordered(TRAIN, DANGER)])); // a danger order where it is clear
    c.list(0, y, &[movement_asked(TRAIN, 0), ordered(TRAIN, CLEAR)]); // no work at all
    c.list(0, y, &[asked(&[2]), movement_asked(TRAIN, 0), ordered(TRAIN, CLEAR)]); // work only asked
    c.list(0, y, &then(work_and_train(M45, &[5], 2), &[ordered(TRAIN, CLEAR)])); // work elsewhere
    c.list(18, y, &then(clear_2(), &[ordered(TRAIN, CLEAR), ordered(TRAIN, CLEAR)])); // ordered already
    c.list(18, y, &then(danger_2(), &[ordered(TRAIN, DANGER), ordered(TRAIN, CLEAR)])); // 18 before 22
    c.list(22, y, &then(cleared_2(M45), &[ordered(TRAIN, CLEAR)])); // one of two lacks
    let mixed = then(cleared_2(M45), &[cleared(TRAIN, [5, 3, 0, 0, VOICE])]);
    c.list(22, y, &then(mixed.clone(), &[ordered(TRAIN, CLEAR)])); // one efficient, one not
    c.list(0, y, &then(mixed, &[ordered(TRAIN, DANGER)])); // the same, at danger
}

/// Kind 8, passed.
pub fn kind_8(c: &mut Cases, y: &[u8]) {
    c.list(0, y, &then(clear_2(), &[ordered(TRAIN, CLEAR), passed(TRAIN)])); // accepted
    c.list(15, y, &then(clear_2(), &[ordered(TRAIN, CLEAR), passed(513)])); // another train
    c.list(18, y, &then(clear_2(), &[passed(TRAIN)])); // not ordered
    c.list(15, y, &then(clear_2(), &[ordered(TRAIN, CLEAR), passed(TRAIN), passed(TRAIN)])); // gone, after it passed
    c.list(15, y, &then(clear_2(), &[passed(FORM)])); // 15 before 18
}

/// Kind 9, cancelled.
pub fn kind_9(c: &mut Cases, y: &[u8]) {
    c.list(0, y, &then(clear_2(), &[cancelled(TRAIN), movement_asked(TRAIN, 0)])); // cancelled, asked anew
    c.list(15, y, &then(two(), &[cancelled(513)])); // another train
    c.list(18, y, &then(clear_2(), &[ordered(TRAIN, CLEAR), cancelled(TRAIN)])); // ordered
    let ordered_anew = [cancelled(TRAIN), movement_asked(TRAIN, 0), ordered(TRAIN, DANGER)];
    c.list(22, y, &then(clear_2(), &ordered_anew)); // no clearance left
    c.list(15, y, &then(clear_2(), &[ordered(TRAIN, CLEAR), cancelled(1)])); // 15 before 18
}
