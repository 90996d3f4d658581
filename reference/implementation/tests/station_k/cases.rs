//! Single messages on station K's fresh desk, or after a few that it accepts.

use crate::{last_code, station, verbal_work_on_2, with};
use reference::builders::*;
use reference::desk::Desk;
use reference::refusal::Refusal;

#[test]
fn asking_for_work_on_a_fresh_desk() {
    assert_eq!(last_code(&[work_asked(7, 1, &[0])]), 17);
    assert_eq!(last_code(&[work_asked(7, 1, &[0, 1])]), 0);
    assert_eq!(last_code(&[work_asked(7, 1, &[3])]), 17);
    assert_eq!(last_code(&[work_asked(7, 1, &[0, 1, 3])]), 17);
    assert_eq!(last_code(&[work_asked(7, 1, &[])]), 17);
}

#[test]
fn portable_device_under_verbal() {
    assert_eq!(last_code(&with(verbal_work_on_2(), &[detection_off(7, &[], &[2])])), 22);
    assert_eq!(last_code(&with(verbal_work_on_2(), &[detection_off(7, &[2], &[])])), 0);
}

#[test]
fn declarations_for_a_hand_flank_turnout() {
    let standing = with(verbal_work_on_2(), &[movement_asked(512, 0)]);
    assert_eq!(last_code(&with(standing.clone(), &[cleared(512, [2, 3, 0, 0, 1])])), 20);
    assert_eq!(last_code(&with(standing.clone(), &[cleared(512, [2, 8, 0, 1, 1])])), 20);
    assert_eq!(last_code(&with(standing, &[cleared(512, [2, 8, 0, 0, 1])])), 0);
}

#[test]
fn recorder_out() {
    let out = with(verbal_work_on_2(), &[movement_asked(512, 0), recorder(0)]);
    assert_eq!(last_code(&with(out.clone(), &[cleared(512, [2, 8, 0, 0, 1])])), 21);
    assert_eq!(last_code(&with(out, &[cleared(512, [2, 8, 0, 0, 2])])), 0);
}

#[test]
fn clock_of_the_zone() {
    assert_eq!(last_code(&[recorder(0).at(100), recorder(1).at(100)]), 0);
    assert_eq!(last_code(&[recorder(0).at(100), recorder(1).at(99)]), 14);
}

#[test]
fn errors_that_would_pass_a_glance() {
    // The next train needs a clearance of its own.
    let first = [
        work_asked(7, 1, &[0, 1]),
        agreed(7),
        movement_asked(512, 0),
        cleared(512, [0, 1, 0, 0, 1]).whole_group(),
        ordered(512, 1),
        passed(512),
        movement_asked(513, 0),
    ];
    assert_eq!(last_code(&with(first.to_vec(), &[ordered(513, 2)])), 22);
    // Agreement to work on a turnout that a standing movement names.
    assert_eq!(last_code(&[movement_asked(512, 0), work_asked(7, 1, &[2]), agreed(7)]), 19);
    // A refused message does not move the clock.
    let station = station();
    let mut desk = Desk::fresh(&station);
    assert_eq!(desk.hear(&agreed(7).at(500)), Err(Refusal::UnknownId));
    assert_eq!(desk.hear(&recorder(1).at(10)), Ok(0));
}
