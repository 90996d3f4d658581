//! Cases of sheets copied: read from one buffer and written into another. WRITE-5.

use crate::cases::Cases;
use crate::sheets::two_zones;
use reference::builders::*;
use reference::drafts::Sheet;
use reference::sheet::HAND;

/// A buffer before the call: no two bytes in a row are the same, none is 0.
fn buffer(length: usize) -> Vec<u8> {
    (0..length).map(|n| 0xA5 - (n % 97) as u8).collect()
}

/// The sheet with the byte at `at` replaced.
fn with(sheet: &Sheet, at: usize, value: u8) -> Vec<u8> {
    let mut damaged = sheet.bytes();
    damaged[at] = value;
    damaged
}

pub fn add(cases: &mut Cases) {
    let c = cases;
    let (k, two) = (station_k(), two_zones());

    // Written: the sheet, in version 2, and past it nothing.
    c.copied(0, 0, &k.bytes(), &buffer(50)); // station K
    c.copied(0, 0, &k.bytes(), &buffer(51)); // a byte past it
    c.copied(0, 0, &two.bytes(), &buffer(62)); // two zones
    c.copied(0, 0, &two.bytes(), &buffer(100)); // more past it than a record
    c.copied(0, 0, &Sheet::new(8).turnout(7, HAND).bytes(), &buffer(12)); // one turnout, no route
    c.copied(0, 0, &largest_station().bytes(), &buffer(2_313)); // the largest

    // Buffer shorter than the sheet, 8.
    c.copied(8, 0, &k.bytes(), &buffer(49)); // a byte less
    c.copied(8, 0, &k.bytes(), &buffer(17)); // without the route
    c.copied(8, 0, &k.bytes(), &[]); // no byte

    // A refused sheet, whatever the buffer.
    c.copied(1, 0, &k.bytes()[..49], &buffer(50)); // 49 bytes
    c.copied(1, 0, &[k.bytes(), vec![0]].concat(), &buffer(51)); // 51 bytes
    c.copied(2, 0, &with(&k, 0, b's'), &buffer(50)); // mark
    c.copied(5, 0, &with(&k, 4, 2), &buffer(50)); // version 2 is read since M-107; K's partners are no groups
    c.copied(4, 0, &with(&k, 5, 65), &buffer(50)); // counts
    c.copied(5, 2, &with(&k, 16, 2), &buffer(50)); // turnout 2
    c.copied(6, 1, &two_zones().route(0, &[], &[], &[], &[]).bytes(), &buffer(100)); // route 1
    c.copied(5, 0, &with(&k, 12, 255), &[]); // 5 before 8
    c.copied(6, 0, &with(&k, 17, 1), &buffer(49)); // 6 before 8
}
