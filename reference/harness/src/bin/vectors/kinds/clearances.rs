//! Cases of clearances, kind 6: by turnout and train, position, drive and clamp, channel; and of kind 12, the recorder.

use super::{asked, clear_2, cleared_2, two};
use crate::cases::Cases;
use crate::scenes::*;
use reference::builders::*;

/// Kind 6, clearance: 15 to 17.
pub fn kind_6(c: &mut Cases, y: &[u8]) {
    c.list(0, y, &then(two(), &[cleared(TRAIN, [2, 1, 0, 0, VOICE])])); // not opened before
    c.list(15, y, &then(work(M45, &[2]), &[cleared(TRAIN, [2, 1, 0, 0, VOICE])])); // no movement
    c.list(15, y, &then(two(), &[cleared(513, [2, 1, 0, 0, VOICE])])); // another train
    c.list(15, y, &then(two(), &[cleared(FORM, [9, 1, 0, 0, VOICE])])); // 15 before 17
    c.list(16, y, &then(cleared_2(M45), &[cleared(TRAIN, [2, 1, 0, 0, VOICE])])); // cleared already
    c.list(16, y, &then(cleared_2(M45), &[cleared(TRAIN, [2, 3, 1, 1, WRITTEN])])); // 16 before 20
    c.list(17, y, &then(two(), &[cleared(TRAIN, [5, 1, 0, 0, VOICE])])); // named, not under work
    c.list(17, y, &then(work_and_train(M45, &[5], 2), &[cleared(TRAIN, [5, 1, 0, 0, VOICE])])); // under work, not named
    c.list(17, y, &[asked(&[2]), movement_asked(TRAIN, 0), cleared(TRAIN, [2, 1, 0, 0, VOICE])]); // only asked
    let past = [cleared(TRAIN, [8, 1, 0, 0, VOICE]), cleared(TRAIN, [63, 1, 0, 0, VOICE])];
    c.refused(17, y, &two(), &past); // turnout P, turnout 63
    c.list(17, y, &then(two(), &[cleared(TRAIN, [5, 9, 1, 2, WRITTEN])])); // 17 before 20 and 21
    let other_end = cleared(TRAIN, [1, 1, 1, 0, VOICE]).whole_group();
    c.list(17, y, &then(work_and_train(M45, &[0, 1], 0), &[other_end])); // end not named
    c.list(15, y, &then(two(), &[cleared(TRAIN, [2, 1, 0, 0, VOICE]).in_zone(1)])); // in the other zone
    let next = [ordered(TRAIN, CLEAR), passed(TRAIN), movement_asked(513, 0), cleared(513, [2, 8, 0, 2, VOICE])];
    c.list(0, y, &then(clear_2(), &next)); // anew for the next train
}

/// Kind 6, clearance: 20 by position.
pub fn kind_6_position(c: &mut Cases, y: &[u8]) {
    let in_position = |position: u8| cleared(TRAIN, [0, 1, position, 0, VOICE]).whole_group();
    c.list(20, y, &then(work_and_train(M45, &[0, 1], 0), &[in_position(0)])); // normal
    c.list(0, y, &then(work_and_train(M45, &[2], 3), &[cleared(TRAIN, [2, 2, 1, 0, VOICE])])); // another route, reverse
    c.list(0, y, &then(work_and_train(M45, &[0, 1], 0), &[in_position(1)])); // reverse, as it is
    c.list(20, y, &then(two(), &[cleared(TRAIN, [2, 1, 1, 0, VOICE])])); // reverse where normal
}

/// Kind 6, clearance: 20 by drive and clamp.
pub fn kind_6_drive_and_clamp(c: &mut Cases, y: &[u8]) {
    // Electric run over (5), hand run over (2), hand flank (3), electric exit zone (0).
    let places = [(&[5][..], 0, 5, 0), (&[2][..], 0, 2, 0), (&[3, 4][..], 0, 3, 1), (&[0, 1][..], 3, 0, 0)];
    for (turnouts, route, turnout, position) in places {
        let mut codes = vec![0; 2];
        let mut list = work(M45, turnouts);
        for declaration in 1..=9 {
            let electric = matches!(turnout, 0 | 5);
            let run_over = matches!(turnout, 2 | 5);
            let both_ends = u8::from(matches!((turnout, declaration), (0 | 3, 1 | 2)));
            // The clamps that do not fit come first, the one that fits last.
            let (clamps, last) = match declaration {
                3..=6 if !electric => ([0, 1, 2], 20),
                7..=9 if electric => ([0, 1, 2], 20),
                4 | 6 | 9 if run_over => ([0, 2, 1], 0),
                8 if run_over => ([0, 0, 2], 0),
                _ => ([1, 2, 0], 0),
            };
            list.push(movement_asked(TRAIN, route));
            let clearance = |clamp: u8| cleared(TRAIN, [turnout, declaration, position, clamp, VOICE]).d(5, both_ends);
            list.extend(clamps.map(clearance));
            list.push(cancelled(TRAIN));
            codes.extend([0, 20, 20, last, 0]);
        }
        c.codes(&codes, y, &list); // all nine declarations, three clamps each
    }
    c.list(0, y, &then(two(), &[cleared(TRAIN, [2, 8, 0, 1, VOICE])])); // 8 with a clamp, run over
}

/// Kind 6, clearance: 21.
pub fn kind_6_channel(c: &mut Cases, y: &[u8]) {
    c.list(21, y, &then(two(), &[cleared(TRAIN, [2, 1, 0, 0, WRITTEN])])); // written, recorder working
    c.list(21, y, &then(two(), &[recorder(0), cleared(TRAIN, [2, 1, 0, 0, VOICE])])); // voice, recorder out
    c.list(0, y, &then(two(), &[recorder(0), cleared(TRAIN, [2, 1, 0, 0, WRITTEN])])); // written, recorder out
    c.list(0, y, &then(two(), &[recorder(0), recorder(1), cleared(TRAIN, [2, 1, 0, 0, VOICE])])); // working again
    c.list(0, y, &then(two(), &[recorder(0).in_zone(1), cleared(TRAIN, [2, 1, 0, 0, VOICE])])); // out in the other zone
    c.list(20, y, &then(two(), &[cleared(TRAIN, [2, 3, 0, 0, WRITTEN])])); // 20 before 21
}

/// Kind 12, recorder.
pub fn kind_12(c: &mut Cases, y: &[u8]) {
    c.list(0, y, &[recorder(0), recorder(0), recorder(1), recorder(1)]); // as often as one likes
}
