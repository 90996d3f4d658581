//! Cases of minutes. MINUTES-1: "The minutes returned with kind 11 go to the nearest whole minute, and an exact half
//! minute goes to the even one: 30 seconds give 0, 90 give 2, 150 give 2."

use crate::cases::Cases;
use crate::scenes::*;
use reference::builders::*;

/// From a request to its agreement: no part of the minutes.
const REQUEST: u32 = 7;

pub fn add(cases: &mut Cases) {
    let c = cases;
    works(c, &[(0, 0), (29, 0), (30, 0), (31, 1), (59, 1), (60, 1), (89, 1), (90, 2), (91, 2)]); // to two minutes
    works(c, &[(119, 2), (120, 2), (149, 2), (150, 2), (151, 3), (209, 3), (210, 4), (211, 4)]); // to four
    let halves = [(15_330, 256), (15_390, 256), (3_932_130, 65_536), (3_932_190, 65_536)];
    works(c, &halves); // exact halves after 255, 256, 65,535 and 65,536 minutes
    works(c, &[(4_294_967_250, 71_582_788)]); // the last exact half, after 71,582,787 minutes
    works(c, &[(4_294_967_249, 71_582_787)]); // a second less
    works(c, &[(4_294_967_190, 71_582_786)]); // the exact half before it
}

/// Station K, works on turnout 2 one after another: seconds from agreement to restoration, and the minutes stated.
fn works(c: &mut Cases, lasting: &[(u32, u32)]) {
    let mut list = Vec::new();
    let mut time = 0;
    for (seconds, _) in lasting {
        let agreement = time + REQUEST;
        list.extend([work_asked(FORM, VERBAL, &[2]).at(time), agreed(FORM).at(agreement)]);
        time = agreement + seconds;
        list.push(all_restored(FORM).at(time));
    }
    let minutes: Vec<u32> = lasting.iter().map(|(_, minutes)| *minutes).collect();
    c.minutes(&minutes, &station_k().bytes(), &list);
}
