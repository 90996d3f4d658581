//! The minutes of a work on station K, from its agreement to its restoration. MINUTES-1.

use crate::station;
use reference::builders::*;
use reference::desk::Desk;

/// The minutes of work on turnout 2 of station K, agreed and restored at these times.
fn minutes_between(agreement: u32, restoration: u32) -> u32 {
    let station = station();
    let mut desk = Desk::fresh(&station);
    assert_eq!(desk.hear(&work_asked(7, 1, &[2])), Ok(0));
    assert_eq!(desk.hear(&agreed(7).at(agreement)), Ok(0));
    desk.hear(&all_restored(7).at(restoration)).expect("agreed work")
}

/// MINUTES-1: "to the nearest whole minute, and an exact half minute goes to the even one".
#[test]
fn minutes_of_work() {
    let minutes_of = [
        (0, 0),
        (29, 0),
        (30, 0),
        (31, 1),
        (59, 1),
        (60, 1),
        (89, 1),
        (90, 2),
        (91, 2),
        (119, 2),
        (120, 2),
        (149, 2),
        (150, 2),
        (151, 3),
        (209, 3),
        (210, 4),
        (211, 4),
    ];
    for (seconds, minutes) in minutes_of {
        assert_eq!(minutes_between(0, seconds), minutes, "{seconds} seconds");
        assert_eq!(minutes_between(1000, 1000 + seconds), minutes, "{seconds} seconds");
        assert_eq!(minutes_between(u32::MAX - seconds, u32::MAX), minutes, "{seconds} seconds");
    }
}

/// 4,294,967,295 seconds are 71,582,788 minutes and 15 seconds.
#[test]
fn minutes_of_the_longest_work() {
    assert_eq!(minutes_between(0, u32::MAX), 71_582_788);
    assert_eq!(minutes_between(15, u32::MAX), 71_582_788);
    assert_eq!(minutes_between(44, u32::MAX), 71_582_788);
    assert_eq!(minutes_between(45, u32::MAX), 71_582_788); // an exact half, the minute below it odd
    assert_eq!(minutes_between(46, u32::MAX), 71_582_787);
    assert_eq!(minutes_between(104, u32::MAX), 71_582_787);
    assert_eq!(minutes_between(105, u32::MAX), 71_582_786); // an exact half, the minute below it even
}
