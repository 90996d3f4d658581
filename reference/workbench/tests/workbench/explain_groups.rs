//! Groups of three and of eight explained: sets that take a part of one (17), clearances that must or may not cover one
//! (20). KIND-1.2, KIND-10.2, FIT-4.

use crate::explain::{all_say, explained};
use reference::builders::*;

/// Asked, and restored, with a part of a group; with parts of two groups; whole.
#[test]
fn explanation_of_parts() {
    let messages = [
        work_asked(7, 2, &[0, 1]),
        work_asked(7, 2, &[1, 2, 5, 13]),
        work_asked(7, 2, &[0, 1, 2, 13]),
        agreed(7),
        part_restored(7, &[0, 13]),
        part_restored(7, &[0, 1, 2]),
    ];
    let parts = explained("explain_parts", &group_station(), &messages);
    let asked = "Answer 17, 0 minutes: refused: a empty, outside the zone or splitting a group (Art. 2.16, 2.19). ";
    let restored = "Answer 17, 0 minutes: refused: a empty, not a proper part of the work, or splitting a group. ";
    let expected = [
        [asked, "Here: a part of group 0, {0,1} and not {2}. Nothing altered."],
        [asked, "Here: a part of group 0, {1,2} and not {0}; a part of group 2, {5} and not {6,7,8,9,10,11,12}. "],
        ["Answer 0, 0 minutes: accepted: ", "no group split (Art. 2.16, 2.19)"],
        ["Answer 0, ", "agreed"],
        [restored, "Here: a part of group 0, {0} and not {1,2}. Nothing altered."],
        ["Answer 0, 0 minutes: accepted: ", "a proper part, no group split"],
    ];
    all_say(&parts, &expected);
}

/// Kind 4 may name a part of a group; each turnout of a group has a clearance of its own, which covers the whole group
/// where it declares all efficient.
#[test]
fn explanation_of_covering() {
    let worked: Vec<u8> = (0..13).collect();
    let messages = [
        work_asked(7, 1, &worked),
        agreed(7),
        detection_off(7, &[0, 5], &[]),
        movement_asked(512, 0),
        cleared(512, [0, 1, 0, 0, 1]),
        cleared(512, [5, 7, 0, 0, 1]).whole_group(),
        cleared(512, [0, 2, 0, 0, 1]).whole_group(),
        cleared(512, [5, 7, 0, 0, 1]),
    ];
    let parts = explained("explain_covering", &group_station(), &messages);
    let expected = [
        ["Answer 0, 0 minutes: accepted", "Effect: {0,5} open to work."],
        ["Answer 0, ", "held, {0,1,3,4,5,6} without a clearance or a key"],
        ["Answer 20, ", "Here: declaration 1 on turnout 0 of group 0, {0,1,2}, must cover the whole group. Nothing"],
        [
            "Answer 20, ",
            "Here: declaration 7 on turnout 5 of group 2, {5,6,7,8,9,10,11,12}, may not say that it covers the whole",
        ],
        ["covering the whole group.\n  Answer 0, ", "held, {1,3,4,5,6} without a clearance or a key"],
        ["Answer 0, ", "held, {1,3,4,6} without a clearance or a key"],
    ];
    all_say(&parts[2..], &expected);
}
