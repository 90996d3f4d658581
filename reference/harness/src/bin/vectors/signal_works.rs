//! Cases of works on signals: a spread of verdicts, and numbers out of range.

use crate::cases::Cases;

pub fn add(cases: &mut Cases) {
    let c = cases;
    let (held, day, ssc, ensured, touched, safe) = (1, 2, 4, 8, 16, 32);

    // K-10.
    c.verdict(0, 3, [1, 1, day]); // line 1 signal 1
    c.verdict(0, 2, [1, 2, day]); // line 1 signal 2
    c.verdict(0, 5, [2, 1, day]); // line 2 signal 1

    // Line 1.
    c.verdict(0, 6, [1, 5, 0]); // no such signal
    c.verdict(0, 6, [1, 5, held | touched]); // before lights and held
    c.verdict(0, 5, [1, 0, touched | held]); // lights touched, may light wrongly
    c.verdict(0, 1, [1, 0, touched | safe | held]); // lights touched, cannot light wrongly
    c.verdict(0, 1, [1, 4, held]); // held
    c.verdict(0, 3, [1, 0, day]); // distant dark
    c.verdict(0, 3, [1, 4, day | ssc | ensured]); // block post, message ensured
    c.verdict(0, 5, [1, 4, day | ssc]); // message not ensured
    c.verdict(0, 5, [1, 1, ensured]); // by night
    c.verdict(0, 2, [1, 3, day | ensured]); // starting signal
    c.verdict(0, 3, [1, 1, day | touched | safe]); // dark with safe lights
    c.verdict(0, 5, [1, 2, 0]); // nothing

    // Line 2.
    c.verdict(0, 2, [2, 2, day]); // inner home dark
    c.verdict(0, 2, [2, 3, day | ssc | ensured | safe]); // starting dark
    c.verdict(0, 5, [2, 3, day | ssc]); // message not ensured
    c.verdict(0, 5, [2, 2, 0]); // by night
    c.verdict(0, 4, [2, 5, 0]); // other block post, by night
    c.verdict(0, 4, [2, 5, day | ssc]); // and by day without the message
    c.verdict(0, 1, [2, 5, held]); // held before it
    c.verdict(0, 5, [2, 5, touched]); // lights before it
    c.verdict(0, 4, [2, 5, touched | safe]); // safe lights
    c.verdict(0, 5, [2, 0, day]); // distant
    c.verdict(0, 5, [2, 4, day | ensured]); // block post guarding a crossing
    c.verdict(0, 1, [2, 4, held | ssc]); // the same, held

    // Line 3.
    c.verdict(0, 5, [3, 0, day]); // not held
    c.verdict(0, 1, [3, 0, held]); // held
    c.verdict(0, 5, [3, 1, held | touched | safe]); // lights touched, though safe
    c.verdict(0, 1, [3, 5, held | safe]); // signal 5 is there
    c.verdict(0, 5, [3, 5, 0]); // and may be closed only
    c.verdict(0, 5, [3, 5, 63]); // all flags

    // Out of range, 33.
    for out in [[0, 0, 0], [4, 0, 0], [255, 5, 63], [1, 6, 0], [2, 255, 0], [1, 0, 64], [3, 5, 255], [1, 5, 64]] {
        c.verdict(33, 0, out); // line, signal or flags
    }
}
