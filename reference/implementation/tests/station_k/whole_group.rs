//! Clearances that cover the whole group: station K's crossover. Larger groups stand in `groups`. FIT-4.

use crate::{last_code, station, verbal_work_on_2, with};
use reference::builders::*;
use reference::desk::Desk;
use reference::history::History;
use reference::message::{self, Message};
use reference::movement::Regime;
use reference::refusal::Refusal;

/// Work on the crossover, a train over turnout 0.
fn crossover() -> Vec<Message> {
    vec![work_asked(7, 1, &[0, 1]), agreed(7), movement_asked(512, 0)]
}

/// Work on turnout 2, alone by hand, a train that has it in its flank.
fn alone() -> Vec<Message> {
    with(verbal_work_on_2(), &[movement_asked(512, 0)])
}

/// FIT-4: "with declaration 1 or 2 on a turnout of a group, of whatever size, d5 is 1; in every other clearance d5 is
/// 0".
#[test]
fn both_ends_of_a_crossover() {
    for declaration in 1..=6 {
        let clearance = cleared(512, [0, declaration, 0, u8::from(matches!(declaration, 4 | 6)), 1]);
        let due = u8::from(declaration <= 2);
        for d5 in 0..=1 {
            let code = if d5 == due { 0 } else { 20 };
            assert_eq!(last_code(&with(crossover(), &[clearance.d(5, d5)])), code, "declaration {declaration}, {d5}");
        }
    }
    for declaration in [1, 2, 7, 8, 9] {
        let clearance = cleared(512, [2, declaration, 0, 0, 1]);
        assert_eq!(last_code(&with(alone(), &[clearance])), 0);
        assert_eq!(last_code(&with(alone(), &[clearance.whole_group()])), 20);
    }
}

/// FIT-4: "a d5 above 1 gets 13"; RECORD-3: in every other kind d5 stays 0.
#[test]
fn d5_that_no_record_carries() {
    for d5 in 2..=255 {
        assert_eq!(last_code(&with(crossover(), &[cleared(512, [0, 1, 0, 0, 1]).d(5, d5)])), 13);
        assert_eq!(last_code(&with(alone(), &[cleared(512, [2, 1, 0, 0, 1]).d(5, d5)])), 13);
    }
    let others = [
        work_asked(7, 1, &[0, 1]),
        agreed(7),
        withdrawn(7),
        detection_off(7, &[0, 1], &[]),
        movement_asked(512, 0),
        ordered(512, 1),
        passed(512),
        cancelled(512),
        part_restored(7, &[2]),
        all_restored(7),
        recorder(1),
        key_used(512, 2, 1),
    ];
    for other in others {
        assert!(message::read(&other.to_bytes()).is_ok());
        assert_eq!(message::read(&other.d(5, 1).to_bytes()), Err(Refusal::Field));
        assert_eq!(last_code(&with(crossover(), &[other.d(5, 1)])), 13);
    }
}

/// A wrong d5 comes after 16 and 17 and before 21.
#[test]
fn order_of_a_wrong_d5() {
    let wrong = cleared(512, [0, 1, 0, 0, 1]);
    assert_eq!(last_code(&with(crossover(), &[wrong.whole_group(), wrong])), 16);
    assert_eq!(last_code(&with(crossover(), &[wrong.d(0, 1)])), 17);
    assert_eq!(last_code(&with(crossover(), &[wrong.d(0, 2).whole_group()])), 17);
    assert_eq!(last_code(&with(crossover(), &[wrong.d(0, 3).whole_group()])), 17);
    assert_eq!(last_code(&with(alone(), &[wrong])), 17);
    assert_eq!(last_code(&with(crossover(), &[wrong.d(4, 2)])), 20);
    assert_eq!(last_code(&with(crossover(), &[wrong.whole_group().d(4, 2)])), 21);
}

/// HIST-7: in the history a good clearance needs d5 1 on a turnout of a group; the regime is by the declaration alone.
#[test]
fn clear_by_both_ends() {
    let station = station();
    let good = |list: &[Message], turnout: u8| History(list).good_clearance(&station, turnout);
    for declaration in [1, 2] {
        let clearance = cleared(512, [0, declaration, 0, 0, 1]);
        let covered = with(crossover(), &[clearance.whole_group()]);
        let mut desk = Desk::fresh(&station);
        assert!(covered.iter().all(|message| desk.hear(message).is_ok()));
        assert_eq!(desk.movement_question(0, 512).expect("stands").regime, Regime::Clear);
        assert!(good(&covered, 0));
        assert!(!good(&with(crossover(), &[clearance]), 0));
        assert_eq!(last_code(&with(covered, &[ordered(512, 1)])), 0);
    }
    assert!(!good(&with(crossover(), &[cleared(512, [0, 3, 0, 0, 1]).whole_group()]), 0));
    assert!(good(&with(alone(), &[cleared(512, [2, 1, 0, 0, 1])]), 2));
}
