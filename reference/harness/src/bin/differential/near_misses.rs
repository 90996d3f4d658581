//! Messages of a random list that are slightly wrong.

use crate::rng::Rng;
use reference::message::Message;
use reference::set::only;

/// One field changed a little.
pub fn near_miss(rng: &mut Rng, message: Message, last: u32) -> Message {
    if message.kind == 6 && rng.chance(50) {
        return other_clearance(rng, message);
    }
    if message.kind == 13 && rng.chance(50) {
        return other_key(rng, message);
    }
    let bit = only(rng.within(0..=63) as u8);
    match rng.within(0..=16) {
        0 => message.at(last.saturating_sub(1)),
        1 => message.at(last.saturating_sub(rng.within(1..=90))),
        2 => Message { id: message.id.wrapping_add(1), ..message },
        3 => Message { id: 0, ..message },
        4 => message.in_zone(rng.within(0..=9) as u8),
        5 => message.in_zone(rng.byte()),
        6 => Message { a: message.a ^ bit, ..message },
        7 => Message { a: message.a & message.a.wrapping_sub(1), ..message },
        8 => Message { a: message.a ^ only(rng.within(0..=5) as u8), ..message },
        9 => Message { b: message.b ^ only(rng.within(0..=5) as u8), ..message },
        10 => Message { b: message.a, ..message },
        11 => Message { a: 0, b: 0, ..message },
        12 => message.d(rng.index(6), rng.pick(&[0, 1, 2, 3, 9, 10, 62, 63, 64, 255])),
        13 => message.d(rng.index(6), rng.byte()),
        14 => message.d(rng.index(5), rng.within(0..=2) as u8),
        15 => message.d(5, rng.pick(&[1, 1, 2])),
        _ => Message { kind: rng.within(0..=15) as u8, ..message },
    }
}

/// One detail of a clearance changed to another good value.
fn other_clearance(rng: &mut Rng, message: Message) -> Message {
    let [_, _, position, _, channel, cover] = message.d;
    match rng.within(0..=4) {
        0 => message.d(1, rng.within(1..=9) as u8),
        1 => message.d(2, 1 - position),
        2 => message.d(3, rng.within(0..=2) as u8),
        3 => message.d(4, 3 - channel),
        _ => message.d(5, u8::from(cover == 0)),
    }
}

/// The other key, another turnout, another train, or one field of a key changed so that it does not read.
fn other_key(rng: &mut Rng, message: Message) -> Message {
    match rng.within(0..=6) {
        0 => message.d(1, 3 - message.d[1]),
        1 => message.d(0, rng.within(0..=63) as u8),
        2 => Message { id: message.id.wrapping_add(1), ..message },
        3 => message.d(1, rng.pick(&[0, 3, 255])),
        4 => message.d(0, rng.pick(&[64, 65, 128, 255])),
        5 => Message { id: 0, ..message },
        _ => message.d(rng.within(2..=5) as usize, 1),
    }
}
