//! The unit: station K record by record over 520 bytes, keys in them (KIND-13), and bytes that are no desk.

use crate::builders::*;
use crate::desk::Desk;
use crate::drafts::Sheet;
use crate::sheet;
use crate::station::Station;
use crate::unit::{self, DESK};

fn station() -> Station {
    read(&station_k())
}

fn read(sheet: &Sheet) -> Station {
    sheet::read(&sheet.bytes()).expect("a good sheet")
}

fn fresh() -> [u8; DESK] {
    let mut bytes = [0xA5; DESK];
    assert_eq!(unit::fresh(&mut bytes), 0);
    bytes
}

/// Station K's desk after its first records.
fn after(records: usize) -> [u8; DESK] {
    let (sheet, mut bytes) = (station_k().bytes(), fresh());
    for message in journal_k().iter().take(records) {
        unit::apply(&sheet, &mut bytes, &message.to_bytes());
    }
    bytes
}

#[test]
fn fresh_desk() {
    let mut expected = [0; DESK];
    expected[0] = 1;
    (0..8).for_each(|zone| expected[8 + 64 * zone + 49] = 1);
    assert_eq!(fresh(), expected);
    assert_eq!(unit::decode(&station(), &expected), Some(Desk::fresh(&station())));
    assert_eq!(unit::fresh(&mut [7; DESK + 1]), 61);
}

#[test]
fn station_k_record_by_record() {
    let (sheet, mut bytes) = (station_k().bytes(), fresh());
    let mut answers = Vec::new();
    for message in journal_k() {
        let before = bytes;
        let (code, minutes) = unit::apply(&sheet, &mut bytes, &message.to_bytes());
        assert!(code == 0 || bytes == before);
        answers.push((code, minutes));
    }
    let refused = |code| (code, 0);
    let expected =
        [(0, 0), (0, 0), (0, 0), (0, 0), refused(22), (0, 0), refused(22), (0, 0), refused(19), (0, 0), (0, 2)];
    assert_eq!(answers, expected);
}

/// Each field at its place, once detection is off, the movement asked, turnout 0 cleared and the train ordered.
#[test]
fn layout() {
    let mut zone = [0; 64];
    zone[0..2].copy_from_slice(&[2, 1]);
    zone[5] = 7;
    zone[13] = 3;
    zone[17] = 90;
    zone[25] = 2;
    zone[26..29].copy_from_slice(&[1, 0, 2]);
    zone[31] = 2;
    zone[40] = 1;
    zone[49] = 1;
    zone[53] = 117;
    assert_eq!(after(8)[8..72], zone);
    let station = station();
    let desk = unit::decode(&station, &after(8)).expect("a desk's bytes");
    assert_eq!(unit::encode(&desk), after(8));
}

/// FIT-4: d5 is judged, not stored. KIND-6.6: an accepted clearance leaves its turnout cleared and, for declaration 1,
/// efficient; one refused for its d5 leaves the bytes as they were.
#[test]
fn both_ends() {
    let sheet = station_k().bytes();
    let clearance = cleared(512, [0, 1, 0, 0, 1]).at(115);
    let mut bytes = after(5);
    for (d5, code) in [(0, 20), (2, 13)] {
        assert_eq!(unit::apply(&sheet, &mut bytes, &clearance.d(5, d5).to_bytes()), (code, 0));
        assert_eq!(bytes, after(5));
    }
    assert_eq!(unit::apply(&sheet, &mut bytes, &clearance.whole_group().to_bytes()), (0, 0));
    let mut expected = after(6);
    expected[8 + 48] = 1;
    assert_eq!(bytes, expected);
    assert_eq!(unit::movement_at(&station(), &bytes, 0, 512), [0, 1, 255, 0]);
}

/// Station K's last record, at 209, on bytes with another time of the agreement. MINUTES-1: "to the nearest whole
/// minute"; VALUE-5: "an agreement later than the restoration gives 0 minutes".
#[test]
fn minutes_since_any_agreement() {
    let earlier = [(0, 3), (58, 3), (59, 2), (90, 2), (119, 2), (120, 1), (178, 1), (179, 0), (180, 0), (209, 0)];
    let later = [210, 238, 239, 240, 269, 299, u32::MAX].map(|agreement| (agreement, 0));
    for (agreement, minutes) in earlier.into_iter().chain(later) {
        let mut bytes = after(10);
        bytes[8 + 14..8 + 18].copy_from_slice(&u32::to_be_bytes(agreement));
        let restored = all_restored(7).at(209).to_bytes();
        assert_eq!(unit::apply(&station_k().bytes(), &mut bytes, &restored), (0, minutes), "agreed at {agreement}");
    }
}

#[test]
fn no_desk() {
    let changed = |place: usize, value: u8| {
        let mut bytes = after(8);
        bytes[place] = value;
        bytes.to_vec()
    };
    let longer = [&after(8)[..], &[0]].concat();
    let no_desks = [
        after(8)[..DESK - 1].to_vec(),
        longer,
        changed(0, 2),
        changed(7, 1),
        changed(8, 3),
        changed(8, 0),
        changed(8, 1),
        changed(8 + 26, 0),
        changed(8 + 26, 2),
        changed(8 + 49, 2),
        changed(8 + 62, 1),
        changed(8 + 63, 1),
        changed(72 + 1, 1),
        changed(72 + 48, 1),
        changed(72 + 54, 1),
        changed(72 + 61, 128),
    ];
    for mut bytes in no_desks {
        let before = bytes.clone();
        let record = agreed(7).to_bytes();
        assert_eq!(unit::apply(&station_k().bytes(), &mut bytes, &record), (61, 0));
        assert_eq!(bytes, before);
        assert_eq!(unit::movement_at(&station(), &bytes, 0, 512), [61, 0, 255, 0]);
        assert_eq!(unit::work_at(&station(), &bytes, 0), [61, 0]);
    }
}

/// The sheet's number comes first, then 61, then the record's.
#[test]
fn order_of_refusals() {
    let (good, short) = (station_k().bytes(), &station_k().bytes()[..49]);
    let apply = |sheet: &[u8], desk: &mut [u8]| unit::apply(sheet, desk, &[]).0;
    assert_eq!(apply(short, &mut []), 1);
    assert_eq!(apply(&good, &mut []), 61);
    assert_eq!(apply(&good, &mut fresh()), 10);
}

/// A work agreed on these turnouts, detection off, and a movement over route 0.
fn worked(sheet: &Sheet, turnouts: &[u8]) -> [u8; DESK] {
    let mut bytes = fresh();
    let off = detection_off(7, turnouts, &[]);
    for message in [work_asked(7, 1, turnouts), agreed(7), off, movement_asked(512, 0)] {
        assert_eq!(unit::apply(&sheet.bytes(), &mut bytes, &message.to_bytes()), (0, 0));
    }
    bytes
}

/// UNIT-1: the keys stand in bytes 54 to 61 of the zone, and nowhere else; KIND-9.3: they go with the movement.
#[test]
fn keys() {
    let sheet = exit_zone_station();
    let mut bytes = worked(&sheet, &[0, 1, 2, 3, 4, 5]);
    let mut expected = bytes;
    for (turnout, key) in [(4, 2), (2, 1), (3, 2)] {
        assert_eq!(unit::apply(&sheet.bytes(), &mut bytes, &key_used(512, turnout, key).to_bytes()), (0, 0));
        expected[8 + 61] |= 1 << turnout;
        assert_eq!(bytes, expected);
    }
    let station = read(&sheet);
    assert_eq!(unit::encode(&unit::decode(&station, &bytes).expect("a desk's bytes")), bytes);
    assert_eq!(unit::movement_at(&station, &bytes, 0, 512), [0, 0, 0, 2]);
    assert_eq!(unit::apply(&sheet.bytes(), &mut bytes, &cancelled(512).to_bytes()), (0, 0));
    assert!(bytes[8 + 26..8 + 49].iter().chain(&bytes[8 + 54..72]).all(|&byte| byte == 0));
}

/// With a movement the keys are any set, also one that no call gives.
#[test]
fn any_keys() {
    let station = station();
    let with_keys = |bytes: &[u8; DESK], keys: u64| {
        let mut changed = *bytes;
        changed[8 + 54..8 + 62].copy_from_slice(&keys.to_be_bytes());
        changed
    };
    let standing = worked(&station_k(), &[2]);
    for keys in [0, 1, 1 << 63, u64::MAX] {
        let desk = unit::decode(&station, &with_keys(&standing, keys)).expect("a desk's bytes");
        assert_eq!(unit::encode(&desk), with_keys(&standing, keys));
    }
    // A key and a clearance on one turnout: the key counts. It is cleared all the same.
    let mut both = standing;
    assert_eq!(unit::apply_at(&station, &mut both, &cleared(512, [2, 8, 0, 0, 1]).to_bytes()), (0, 0));
    assert_eq!(unit::movement_at(&station, &both, 0, 512), [0, 2, 255, 0]);
    both = with_keys(&both, 1 << 2);
    assert_eq!(unit::movement_at(&station, &both, 0, 512), [0, 1, 255, 0]);
    assert_eq!(unit::apply_at(&station, &mut both, &detection_off(7, &[2], &[]).to_bytes()), (19, 0));
    // A key on a turnout that is not worked: 16 comes before 17.
    let mut elsewhere = with_keys(&standing, 1 << 1);
    assert_eq!(unit::apply_at(&station, &mut elsewhere, &key_used(512, 1, 1).to_bytes()), (16, 0));
    assert_eq!(unit::apply_at(&station, &mut elsewhere, &key_used(512, 0, 1).to_bytes()), (17, 0));
}
