//! Cases of works: kinds 1 to 4, asked, agreed, withdrawn, detection off; 10 and 11, restored.

use super::{asked, cleared_2};
use crate::cases::Cases;
use crate::scenes::*;
use reference::builders::*;

/// Kind 1, work asked.
pub fn kind_1(c: &mut Cases, y: &[u8]) {
    c.list(0, y, &[asked(&[0, 1, 2, 3, 4, 5])]); // the whole zone
    c.list(0, y, &[work_asked(FORM, VERBAL, &[6]).in_zone(1)]); // the other zone
    c.list(16, y, &[asked(&[2]), work_asked(8, M45, &[5])]); // work asked already
    c.list(16, y, &then(work(M45, &[2]), &[asked(&[2])])); // work agreed already
    c.list(16, y, &[asked(&[2]), work_asked(8, M45, &[])]); // 16 before 17
    c.list(17, y, &[asked(&[])]); // empty
    c.refused(17, y, &[], &[asked(&[2, 6]), asked(&[2]).in_zone(1)]); // one of another zone, all of another zone
    c.refused(17, y, &[], &[asked(&[2, 8]), asked(&[2, 63])]); // turnout P, turnout 63
    c.refused(17, y, &[], &[asked(&[1, 2]), asked(&[0, 1, 3])]); // one end of a crossover; one whole, one split
    c.list(0, y, &[movement_asked(TRAIN, 0), asked(&[2])]); // under a movement that names it
}

/// Kind 2, agreed.
pub fn kind_2(c: &mut Cases, y: &[u8]) {
    c.list(0, y, &[asked(&[2]), agreed(FORM)]); // accepted
    c.refused(15, y, &[asked(&[2])], &[agreed(8), agreed(FORM).in_zone(1)]); // another id, in the other zone
    c.list(18, y, &then(work(M45, &[2]), &[agreed(FORM)])); // agreed already
    c.list(19, y, &[asked(&[2]), movement_asked(TRAIN, 0), agreed(FORM)]); // run over
    c.list(19, y, &[asked(&[3, 4]), movement_asked(TRAIN, 0), agreed(FORM)]); // flank
    c.list(19, y, &[asked(&[0, 1]), movement_asked(TRAIN, 3), agreed(FORM)]); // exit zone
    c.list(0, y, &[asked(&[3, 4]), movement_asked(TRAIN, 3), agreed(FORM)]); // named by no movement
    let ordered_train = [movement_asked(TRAIN, 0), ordered(TRAIN, CLEAR), asked(&[2]), agreed(FORM)];
    c.list(19, y, &ordered_train); // movement ordered
    c.list(18, y, &then(work_and_train(M45, &[2], 0), &[agreed(FORM)])); // 18 before 19
    c.list(15, y, &[asked(&[2]), movement_asked(TRAIN, 0), agreed(8)]); // 15 before 19
}

/// Kind 3, withdrawn.
pub fn kind_3(c: &mut Cases, y: &[u8]) {
    c.list(0, y, &[asked(&[2]), withdrawn(FORM), work_asked(8, M45, &[2])]); // withdrawn, asked anew
    c.list(18, y, &then(work(M45, &[2]), &[withdrawn(FORM)])); // agreed
    c.list(15, y, &then(work(M45, &[2]), &[withdrawn(8)])); // 15 before 18
    c.list(15, y, &[asked(&[2]), withdrawn(FORM), agreed(FORM)]); // gone
}

/// Kind 4, detection off.
pub fn kind_4(c: &mut Cases, y: &[u8]) {
    c.list(0, y, &then(work(M45, &[0, 1, 2]), &[detection_off(FORM, &[0], &[1, 2])])); // splits a crossover
    c.list(0, y, &then(work(M45, &[2]), &[detection_off(FORM, &[], &[2])])); // b alone
    c.list(15, y, &then(work(M45, &[2]), &[detection_off(8, &[], &[])])); // 15 before 17
    c.list(17, y, &then(work(M45, &[2]), &[detection_off(FORM, &[], &[])])); // both empty
    c.list(17, y, &then(work(M45, &[2, 5]), &[detection_off(FORM, &[2, 5], &[2])])); // overlapping
    let outside = [detection_off(FORM, &[2, 5], &[]), detection_off(FORM, &[2], &[5]), detection_off(FORM, &[], &[63])];
    c.refused(17, y, &work(M45, &[2]), &outside); // a outside, b outside, b past P
    c.list(17, y, &[asked(&[2]), detection_off(FORM, &[5], &[])]); // 17 before 18
    c.list(18, y, &[asked(&[2]), detection_off(FORM, &[2], &[])]); // not agreed
    c.list(18, y, &[work_asked(FORM, VERBAL, &[2]), detection_off(FORM, &[], &[2])]); // 18 before 22
    c.list(19, y, &then(cleared_2(M45), &[detection_off(FORM, &[5, 2], &[])])); // cleared in a
    c.list(19, y, &then(cleared_2(M45), &[detection_off(FORM, &[5], &[2])])); // cleared in b
    c.list(0, y, &then(cleared_2(M45), &[detection_off(FORM, &[5], &[])])); // named, not cleared
    c.list(19, y, &then(cleared_2(VERBAL), &[detection_off(FORM, &[], &[2])])); // 19 before 22
    c.list(17, y, &then(cleared_2(M45), &[detection_off(FORM, &[2, 3], &[])])); // 17 before 19
    c.list(22, y, &then(cleared_2(VERBAL), &[detection_off(FORM, &[], &[5])])); // portable under verbal
    c.list(22, y, &then(work(VERBAL, &[2, 5]), &[detection_off(FORM, &[2], &[5])])); // also beside a
    c.list(0, y, &then(work(VERBAL, &[2, 5]), &[detection_off(FORM, &[2, 5], &[])])); // a under verbal
    let twice = then(work(M45, &[2, 5]), &[detection_off(FORM, &[2], &[]), detection_off(FORM, &[], &[5])]);
    c.work([0, 1], y, &journal(&twice), 2); // a second 4 adds: the first turnout stays open
    c.work([0, 1], y, &journal(&twice), 5); // and the second is open
    let passed_2 = then(cleared_2(M45), &[cleared(TRAIN, [5, 1, 0, 0, VOICE]), ordered(TRAIN, CLEAR), passed(TRAIN)]);
    c.list(0, y, &then(passed_2.clone(), &[detection_off(FORM, &[2], &[])])); // opened anew after the train
    c.work([0, 1], y, &journal(&then(passed_2.clone(), &[detection_off(FORM, &[2], &[])])), 2); // then it is open
    c.work([0, 0], y, &journal(&passed_2), 2); // and not before
}

/// Kind 10, part restored.
pub fn kind_10(c: &mut Cases, y: &[u8]) {
    c.list(0, y, &then(work(VERBAL, &[0, 1, 2, 5]), &[part_restored(FORM, &[0, 1])])); // a crossover
    c.list(15, y, &then(work(VERBAL, &[2, 5]), &[part_restored(8, &[])])); // 15 before 17
    c.list(17, y, &then(work(VERBAL, &[2, 5]), &[part_restored(FORM, &[])])); // empty
    c.list(17, y, &then(work(VERBAL, &[2, 5]), &[part_restored(FORM, &[2, 5])])); // the whole
    let outside = [part_restored(FORM, &[3, 4]), part_restored(FORM, &[2, 3, 4]), part_restored(FORM, &[2, 63])];
    c.refused(17, y, &work(VERBAL, &[2, 5]), &outside); // outside, partly outside, past P
    c.list(17, y, &then(work(VERBAL, &[0, 1, 2]), &[part_restored(FORM, &[0])])); // splitting a crossover
    c.list(17, y, &then(work(VERBAL, &[2, 5]), &[part_restored(FORM, &[2]), part_restored(FORM, &[2])])); // gone
    c.list(17, y, &then(work(VERBAL, &[2, 5]), &[part_restored(FORM, &[2]), part_restored(FORM, &[5])])); // the rest
    c.list(17, y, &[work_asked(FORM, VERBAL, &[2, 5]), part_restored(FORM, &[2, 5])]); // 17 before 18
    c.list(18, y, &[work_asked(FORM, VERBAL, &[2, 5]), part_restored(FORM, &[2])]); // not agreed
    c.list(18, y, &[asked(&[2, 5]), movement_asked(TRAIN, 2), part_restored(FORM, &[2])]); // 18 before 19
    c.list(19, y, &then(work_and_train(VERBAL, &[2, 5], 2), &[part_restored(FORM, &[2])])); // named by the movement
    c.list(0, y, &then(work_and_train(VERBAL, &[2, 5], 2), &[part_restored(FORM, &[5])])); // another is named
    c.list(19, y, &then(work_and_train(M45, &[2, 5], 2), &[part_restored(FORM, &[2])])); // 19 before 22
    c.list(17, y, &then(work_and_train(M45, &[2, 5], 2), &[part_restored(FORM, &[2, 5])])); // 17 before 19
    c.list(22, y, &then(work(M45, &[2, 5]), &[part_restored(FORM, &[2])])); // under M.45
    let opened = then(work(VERBAL, &[2, 5]), &[detection_off(FORM, &[2, 5], &[])]);
    let parted = then(opened, &[part_restored(FORM, &[2])]);
    c.work([0, 0], y, &journal(&parted), 2); // shut
    c.work([0, 1], y, &journal(&parted), 5); // still open
    c.list(0, y, &then(parted.clone(), &[movement_asked(TRAIN, 2), ordered(TRAIN, CLEAR)])); // needs no clearance
    c.list(17, y, &then(parted, &[detection_off(FORM, &[2], &[])])); // outside the work now
}

/// Kind 11, all restored, with minutes.
pub fn kind_11(c: &mut Cases, y: &[u8]) {
    let mut list = Vec::new();
    for (start, seconds) in [(0, 0), (100, 59), (200, 60), (300, 119), (500, 120), (1000, 3_600_000)] {
        list.extend([asked(&[2]).at(start), agreed(FORM).at(start + 9), all_restored(FORM).at(start + 9 + seconds)]);
    }
    c.minutes(&[0, 1, 1, 2, 2, 60_000], y, &list); // to the nearest
    c.minutes(&[71_582_788], y, &[asked(&[2]), agreed(FORM), all_restored(FORM).at(u32::MAX)]); // the most
    c.list(15, y, &then(work(M45, &[2]), &[all_restored(8)])); // another id
    c.list(18, y, &[asked(&[2]), all_restored(FORM)]); // not agreed
    c.list(19, y, &then(work_and_train(M45, &[2], 0), &[all_restored(FORM).at(600)])); // named by the movement
    c.list(0, y, &then(work_and_train(M45, &[5], 2), &[all_restored(FORM).at(600)])); // not named
    c.list(18, y, &[asked(&[2]), movement_asked(TRAIN, 0), all_restored(FORM)]); // 18 before 19
    c.list(15, y, &then(work(M45, &[2]), &[all_restored(FORM), all_restored(FORM)])); // gone
    let again = [all_restored(FORM).at(60), asked(&[2]).at(70), agreed(FORM).at(80), all_restored(FORM).at(210)];
    c.minutes(&[1, 2], y, &then(work(M45, &[2]), &again)); // from the last agreement
}
