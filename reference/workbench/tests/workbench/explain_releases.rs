//! Clearances and release keys explained.

use crate::explain::{all_say, explained};
use reference::builders::*;

/// FIT-4: what d5 says, and why it makes a clearance unfit.
#[test]
fn explanation_of_whole_groups() {
    let clearance =
        |turnout: u8, declaration: u8| cleared(512, [turnout, declaration, 0, u8::from(declaration == 4), 1]);
    let messages = [
        work_asked(7, 1, &[0, 1, 2]),
        agreed(7),
        movement_asked(512, 0),
        clearance(0, 1),
        clearance(0, 4).whole_group(),
        clearance(2, 8).whole_group(),
        clearance(2, 3).whole_group().d(2, 1),
        clearance(0, 1).whole_group(),
        clearance(2, 2),
    ];
    let parts = explained("explain_whole", &station_k(), &messages);
    let rule = "on a turnout of a group cover the whole group, no other clearance does (Art. 3.24). Here: ";
    let expected = [
        [
            "declaration 1 (all efficient), normal, no clamp, by voice.\n",
            "Answer 20, 0 minutes: refused: position, declaration and clamp must fit",
            "Here: declaration 1 on turnout 0 of group 0, {0,1}, must cover the whole group. Nothing altered.",
        ],
        [
            "declaration 4 (lacks more than detection), normal, clamped, by voice, covering the whole group.\n",
            "Answer 20, 0 minutes: refused: ",
            "Here: declaration 4 on turnout 0 of group 0, {0,1}, may not say that it covers the whole group.",
        ],
        [
            "declaration 8 (lacks more than detection), normal, no clamp, by voice, covering the whole group.\n",
            rule,
            "Here: turnout 2 is alone: there is no group to cover. Nothing altered.",
        ],
        [
            "Here: the route has turnout 2 normal; ",
            "; declaration 3 does not fit the drive, hand with key lock; ",
            "; turnout 2 is alone: there is no group to cover. Nothing altered.",
        ],
        [
            "declaration 1 (all efficient), normal, no clamp, by voice, covering the whole group.\n",
            "Answer 0, 0 minutes: accepted: ",
            "and so does what it covers (Art. 3.24)",
        ],
        ["by voice.\n", "Answer 0, 0 minutes: accepted: ", "Regime: clear, {0,2} cleared as all efficient."],
    ];
    all_say(&parts[3..], &expected);
}

/// KIND-13: what a key does, why it is refused, and the keys that a zone then holds.
#[test]
fn explanation_of_keys() {
    let worked = [0, 1, 2, 3, 4, 5];
    let opening = [
        work_asked(7, 1, &worked),
        agreed(7),
        detection_off(7, &worked, &[]),
        movement_asked(512, 0),
        key_used(512, 2, 1),
    ];
    let talk = [
        key_used(512, 2, 2),
        cleared(512, [2, 1, 0, 0, 1]).whole_group(),
        key_used(512, 5, 2),
        key_used(512, 4, 1),
        key_used(512, 1, 1),
        key_used(513, 3, 1),
        key_used(512, 4, 2),
        cleared(512, [3, 1, 0, 0, 1]).whole_group(),
        cleared(512, [0, 2, 0, 0, 1]).whole_group(),
        key_used(512, 3, 1),
        cleared(512, [5, 1, 0, 0, 1]),
        cancelled(512),
    ];
    let parts = explained("explain_keys", &exit_zone_station(), &[&opening[..], &talk].concat());
    let (occupied, rule) = (
        "Answer 16, 0 minutes: refused: cleared already, or with a key. Here: ",
        "Answer 23, 0 minutes: refused: a key is for a flank turnout, Es also for one in the exit zone (Art. 3.22)",
    );
    let expected = [
        [
            "key Tcl used for turnout 2, train 512.\n  Answer 0, 0 minutes: accepted: ",
            "Effect: turnout 2 lacks nothing; it is not cleared, and open or shut to work as before.",
            "Open to work: {0,1,2,3,4,5}.\n",
        ],
        ["key Es used for turnout 2", occupied, "Here: turnout 2 has a key. Nothing altered."],
        ["clearance of turnout 2", occupied, "Here: turnout 2 has a key. Nothing altered."],
        ["key Es used for turnout 5", rule, "Here: route 0 runs over turnout 5: no key is for it. Nothing altered."],
        ["key Tcl used for turnout 4", rule, "Here: route 0 has turnout 4 in its exit zone, and the key is Tcl."],
        ["key Tcl used for turnout 1", "Answer 17, 0 minutes: ", "Here: route 0 does not name turnout 1."],
        ["train 513", "Answer 15, 0 minutes: ", "Here: the zone's movement is of train 512."],
        ["Answer 0, ", "Cleared: none. Keys: {2,4}. ", "Regime: held, {0,3,5} without a clearance or a key."],
        ["Answer 0, ", "Cleared: {3}. Keys: {2,4}. ", "Regime: held, {0,5} without a clearance or a key."],
        ["Answer 0, ", "Cleared: {0,3}. Keys: {2,4}. ", "Regime: held, {5} without a clearance or a key."],
        ["key Tcl used for turnout 3", occupied, "Here: turnout 3 is cleared. Nothing altered."],
        ["Answer 0, ", "Keys: {2,4}. ", "clear, {0,3,5} cleared as all efficient, {2,4} released by a key."],
        ["no movement, clearance or key", "{2,4} has no key any more.", "none. Cleared: none. Keys: none.\n"],
    ];
    all_say(&parts[4..], &expected);
}
