//! Keys (KIND-13) in the bytes of a unit (UNIT-1, UNIT-2), damaged: how, and counts of what occurred.

use crate::keys::standing;
use crate::rng::Rng;
use reference::desk::Desk;
use reference::movement::Regime;
use reference::station::Station;
use reference::unit::{self, DESK};

/// Places in a zone's 64 bytes.
const MOVEMENT: usize = 26;
const CLEARED: usize = 33;
const KEYS: usize = 54;
const RESERVED: usize = 62;

/// The keys of a zone changed: one turnout more or less, those that are cleared, or any set. Without a movement it is
/// no desk.
pub fn change_keys(rng: &mut Rng, zone: &mut [u8]) {
    match rng.within(0..=5) {
        0 | 1 => zone[KEYS + rng.pick(&[0, 6, 7, 7, 7])] ^= 1 << rng.index(8),
        2..=4 => zone.copy_within(CLEARED..CLEARED + 8, KEYS),
        _ => zone[KEYS..RESERVED].copy_from_slice(&rng.bytes(8)),
    }
}

/// One of the two bytes that stay 0.
pub fn change_reserved(rng: &mut Rng, zone: &mut [u8]) {
    zone[RESERVED + rng.index(2)] = rng.pick(&[1, 2, 64, 128, 255]);
}

const NAMES: [&str; 7] = [
    "damaged desk, keys changed",
    "damaged desk, a key and a clearance on a worked turnout",
    "damaged desk, clear by a key over a lesser clearance",
    "damaged desk, a key on a turnout that may have none",
    "61 for keys without a movement alone",
    "61 for reserved byte 62 of a zone alone",
    "61 for reserved byte 63 of a zone alone",
];

#[derive(Default)]
pub struct DamagedKeys([u64; NAMES.len()]);

impl DamagedKeys {
    fn count(&mut self, name: &str) {
        let place = NAMES.iter().position(|other| *other == name).expect("one of the names");
        self.0[place] += 1;
    }

    /// The bytes of a desk, and what damage made of them.
    pub fn tried(&mut self, station: &Station, before: &[u8], bytes: &[u8]) {
        if bytes.len() != DESK {
            return;
        }
        match unit::decode(station, bytes) {
            Some(desk) => self.desk(&desk, before != bytes && keys_alone(before, bytes)),
            None => self.no_desk(station, bytes),
        }
    }

    fn desk(&mut self, desk: &Desk, keys_alone: bool) {
        if keys_alone {
            self.count("damaged desk, keys changed");
        }
        for zone in desk.zones() {
            let Some(train) = standing(zone) else {
                continue;
            };
            let agreed = zone.work.agreed_turnouts();
            let both = train.route.named() & agreed & train.keys & train.cleared;
            if both != 0 {
                self.count("damaged desk, a key and a clearance on a worked turnout");
            }
            if both & !train.efficient != 0 && train.standing(agreed).regime == Regime::Clear {
                self.count("damaged desk, clear by a key over a lesser clearance");
            }
            if train.keys & !(train.route.flank | train.route.exit_zone) != 0 {
                self.count("damaged desk, a key on a turnout that may have none");
            }
        }
    }

    /// What alone makes the bytes no desk's, if it is of a zone's last ten bytes.
    fn no_desk(&mut self, station: &Station, bytes: &[u8]) {
        let mended = |mend: fn(&mut [u8])| {
            let mut mended = bytes.to_vec();
            mended[8..].chunks_exact_mut(64).for_each(mend);
            unit::decode(station, &mended).is_some()
        };
        if mended(|zone| {
            if zone[MOVEMENT] == 0 {
                zone[KEYS..RESERVED].fill(0);
            }
        }) {
            self.count("61 for keys without a movement alone");
        }
        if mended(|zone| zone[RESERVED] = 0) {
            self.count("61 for reserved byte 62 of a zone alone");
        }
        if mended(|zone| zone[RESERVED + 1] = 0) {
            self.count("61 for reserved byte 63 of a zone alone");
        }
    }

    pub fn counts(&self) -> Vec<(String, u64)> {
        NAMES.iter().zip(self.0).map(|(name, count)| (name.to_string(), count)).collect()
    }
}

/// Do the two differ in keys alone?
fn keys_alone(before: &[u8], after: &[u8]) -> bool {
    let mut differing = before.iter().zip(after).enumerate().filter(|(_, (before, after))| before != after);
    differing.all(|(place, _)| place >= 8 && (KEYS..RESERVED).contains(&((place - 8) % 64)))
}
