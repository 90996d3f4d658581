//! Cases of the message record: each field rule of kinds 1 to 12, and writing into buffers. Kind 13 stands in `keys`.

use crate::cases::Cases;
use reference::builders::*;
use reference::message::Message;

/// A good message of each kind, with numbers in every byte of the fields it names.
fn good(kind: u8) -> Message {
    let base = message(kind, 0x0102_0304).at(0x0506_0708).in_zone(0xFE);
    let (a, b) = (0x8142_2418_1824_4281, 0x0718_2839_4A5B_6C7D);
    match kind {
        1 => Message { a, ..base.d(0, 2) },
        4 => Message { a, b, ..base },
        5 => base.d(0, 63),
        6 => Message { d: [63, 9, 1, 2, 2, 0], ..base },
        7 => base.d(0, 2),
        10 => Message { a, ..base },
        12 => Message { id: 0, ..base.d(0, 1) },
        _ => base,
    }
}

pub fn add(cases: &mut Cases) {
    let c = cases;
    // Field rules, 13: id, the sets not named, the details not named, each kind in turn.
    let k = station_k().bytes();
    for kind in 1..=12 {
        let good = good(kind);
        let wrong_id = Message { id: u32::from(kind == 12), ..good };
        c.record(13, &wrong_id.to_bytes()); // id 0, or not 0 for kind 12
        let mut bad = vec![wrong_id];
        if !matches!(kind, 1 | 4 | 10) {
            bad.extend([Message { a: 1, ..good }, Message { a: 1 << 63, ..good }]);
        }
        if kind != 4 {
            bad.extend([Message { b: 1, ..good }, Message { b: 1 << 63, ..good }]);
        }
        let unnamed = match kind {
            // Named since M-101, RECORD-3: 0 or 1, and 32 is neither.
            6 => 5..6,
            1 | 5 | 7 | 12 => 1..6,
            _ => 0..6,
        };
        bad.extend(unnamed.map(|detail| good.d(detail, 1 << detail)));
        c.refused(13, &k, &[], &bad); // all of them heard
    }
    let mut bad = |message: Message| c.record(13, &message.to_bytes());
    bad(Message { a: 1 << 63, ..good(2) }); // a where none is named
    bad(Message { b: 1, ..good(10) }); // b where only a is named
    bad(good(4).d(0, 1)); // the first detail
    bad(good(6).d(5, 2)); // the last detail

    // Field rules, 13: values of the details named.
    bad(good(1).d(0, 0)); // no form
    bad(good(1).d(0, 3)); // form 3
    bad(good(5).d(0, 64)); // route 64
    bad(good(5).d(0, 255)); // route 255
    bad(good(6).d(0, 64)); // turnout 64
    bad(good(6).d(1, 0)); // declaration 0
    bad(good(6).d(1, 10)); // declaration 10
    bad(good(6).d(2, 2)); // position 2
    bad(good(6).d(3, 3)); // clamp 3
    bad(good(6).d(4, 0)); // channel 0
    bad(good(6).d(4, 3)); // channel 3
    bad(good(7).d(0, 0)); // aspect 0
    bad(good(7).d(0, 3)); // aspect 3
    bad(good(12).d(0, 2)); // recorder 2

    // Accepted: each kind, and the ends of each range.
    for kind in 1..=12 {
        c.record(0, &good(kind).to_bytes()); // each kind
    }
    c.record(0, &work_asked(1, 1, &[]).to_bytes()); // an empty set is no field fault
    c.record(0, &detection_off(u32::MAX, &[], &[]).at(u32::MAX).in_zone(255).to_bytes()); // largest id, time, zone
    c.record(0, &movement_asked(1, 0).to_bytes()); // route 0
    c.record(0, &cleared(1, [0, 1, 0, 0, 1]).to_bytes()); // lowest details
    c.record(0, &part_restored(1, &[]).to_bytes()); // empty part
    c.record(0, &recorder(0).to_bytes()); // recorder out

    // Length, 10, and kind, 11.
    c.record(10, &[]); // no byte
    c.record(10, &good(2).to_bytes()[..31]); // 31 bytes
    c.record(10, &[&good(2).to_bytes()[..], &[0]].concat()); // 33 bytes
    c.record(10, &[255; 31]); // length before kind and fields
    for kind in [0, 14, 128, 255] {
        c.record(11, &Message { kind, ..good(2) }.to_bytes()); // none of the thirteen
    }
    c.record(11, &[0; 32]); // kind before id
    c.record(11, &[255; 32]); // kind before fields

    // Writing.
    for kind in [1, 4, 6, 12] {
        c.write(0, &good(kind), &[0xAA; 32]); // all fields
    }
    c.write(0, &good(2), &good(6).to_bytes()); // over another record
    c.write(10, &good(2), &[]); // no buffer
    c.write(10, &good(2), &[0xAA; 31]); // 31 bytes
    c.write(10, &good(2), &[0xAA; 33]); // 33 bytes
    c.write(10, &good(2), &[0xAA; 64]); // 64 bytes
    c.write(10, &good(2).d(0, 1), &[0xAA; 31]); // 10 before 13
    c.write(10, &message(14, 1), &[0xAA; 33]); // 10 before a bad kind
    c.write(13, &good(2).d(0, 1), &[0xAA; 32]); // a bad detail
    c.write(13, &message(0, 1), &[0xAA; 32]); // kind 0 is 13 when written
    c.write(13, &message(14, 1), &[0xAA; 32]); // kind 14
    c.write(13, &message(1, 0).d(0, 1), &[0xAA; 32]); // id 0
    c.write(13, &message(12, 1), &[0xAA; 32]); // id with the recorder
    c.write(13, &good(6).d(1, 10), &[0xAA; 32]); // declaration 10
    c.write(13, &good(10).b(&[0]), &[0xAA; 32]); // b in kind 10
}
