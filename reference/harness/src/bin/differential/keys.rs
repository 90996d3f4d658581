//! Release keys (KIND-13): what a key does, on the library's own answers; counts of what occurred: keys by place,
//! their refusals, regimes with them, keys that lapse. Keys in damaged bytes of a unit stand in `damaged_keys`.

use crate::compare::Files;
use crate::Difference;
use harness::library;
use reference::desk::{Desk, ZONES};
use reference::keys::Key;
use reference::message::{Message, RECORD};
use reference::movement::{Movement, Regime, Train};
use reference::refusal::number;
use reference::set::{holds, Set};
use reference::zone::Zone;

const NAMES: [&str; 33] = [
    "key Tcl, flank, accepted",
    "key Es, flank, accepted",
    "key Es, exit zone, accepted",
    "key accepted on a turnout open to work",
    "key accepted on a turnout not open to work",
    "23: key Tcl, exit zone",
    "23: key Tcl, run over",
    "23: key Es, run over",
    "16 of a key on a cleared turnout",
    "16 of a second key",
    "16 of a clearance over a key",
    "17 of a key, not under agreed work",
    "17 of a key, not named",
    "13 of a key, id 0",
    "13 of a key, turnout above 63",
    "13 of a key, d1 0",
    "13 of a key, d1 above 2",
    "13 of a key, a field not named",
    "11 of kind 14",
    "key, 15 before 16",
    "key, 15 before 17",
    "key, 15 before 23",
    "key, 16 before 23",
    "key, 17 before 23",
    "kind 4 accepted, naming a turnout with a key",
    "clear by keys alone",
    "clear by clearances alone",
    "clear by keys and clearances",
    "danger beside a key",
    "held beside a key",
    "clear ordered with a key",
    "keys dropped by 8, the next train lacks again",
    "keys dropped by 9, the next train lacks again",
];

/// On the library's own answers, of a key that a unit accepted: one turnout less lacks, the turnout is open to work as
/// before, and of the bytes the zone's keys and its last time alone may change.
pub fn key_alone(files: Files, before: &[u8], after: &[u8], record: &[u8; RECORD]) -> Result<(), Difference> {
    let Message { kind: 13, zone, id, d: [turnout, ..], .. } = Message::from_bytes(record) else {
        return Ok(());
    };
    let lacking = |bytes: &[u8]| library::unit_movement(files.sheet, bytes, zone, id) >> 24;
    let open = |bytes: &[u8]| library::unit_work(files.sheet, bytes, turnout);
    let call = || format!("unit_apply, a key alone (lacking, open): desk {before:?}, record {record:?}");
    files.same(call, (lacking(after) + 1, open(after)), (lacking(before), open(before)))?;
    let zone_at = 8 + 64 * usize::from(zone);
    let differing = |place: &usize| before[*place] != after[*place];
    let elsewhere = (0..before.len()).filter(differing).find(|place| !(zone_at + 50..zone_at + 62).contains(place));
    files.same(|| format!("unit_apply, a key alone (place changed): record {record:?}"), elsewhere, None)
}

pub struct Keys {
    /// By place in `NAMES`.
    counts: [u64; NAMES.len()],
    /// Of each zone, the keys that the last movement of this list had, and the kind that ended it.
    lapsed: [(Set, u8); ZONES],
}

impl Keys {
    pub fn new() -> Keys {
        Keys { counts: [0; NAMES.len()], lapsed: [(0, 0); ZONES] }
    }

    fn count(&mut self, name: &str) {
        let place = NAMES.iter().position(|other| *other == name).expect("one of the names");
        self.counts[place] += 1;
    }

    /// A record of a list, and the desk that is to hear it.
    pub fn heard(&mut self, desk: &Desk, record: &[u8; RECORD]) {
        let message = Message::from_bytes(record);
        let mut after = desk.clone();
        let code = number(&after.hear(&message));
        match (message.kind, code) {
            (13, 13) => self.bad_field(&message),
            (14, 11) => self.count("11 of kind 14"),
            _ => {}
        }
        if let (true, Some(before), Some(after)) = (code != 13, desk.zone(message.zone), after.zone(message.zone)) {
            match code {
                0 => self.accepted(&message, before, after),
                _ => self.refused(desk, &message, code, before),
            }
        }
    }

    /// The field that is wrong, if one alone is.
    fn bad_field(&mut self, message: &Message) {
        let [turnout, key, ..] = message.d;
        let faults = [
            (message.id == 0, "13 of a key, id 0", Message { id: 1, ..*message }),
            (turnout > 63, "13 of a key, turnout above 63", message.d(0, 0)),
            (key == 0, "13 of a key, d1 0", message.d(1, 1)),
            (key > 2, "13 of a key, d1 above 2", message.d(1, 1)),
            (true, "13 of a key, a field not named", Message { a: 0, b: 0, d: [turnout, key, 0, 0, 0, 0], ..*message }),
        ];
        if let Some((_, name, _)) = faults.iter().find(|(wrong, _, mended)| *wrong && mended.content().is_ok()) {
            self.count(name);
        }
    }

    fn refused(&mut self, desk: &Desk, message: &Message, code: u8, zone: &Zone) {
        let Some(train) = standing(zone) else {
            return;
        };
        let turnout = message.d[0];
        if message.kind == 6 && code == 16 && holds(train.keys, turnout) {
            self.count("16 of a clearance over a key");
        }
        let (13, Some(key)) = (message.kind, Key::of(message.d[1])) else {
            return;
        };
        let (run_over, may) = (holds(train.route.run_over, turnout), key.may_release(train.route, turnout));
        let (worked, named) = (holds(zone.work.agreed_turnouts(), turnout), holds(train.route.named(), turnout));
        match (code, key) {
            (15, _) => match number(&desk.clone().hear(&Message { id: train.id, ..*message })) {
                16 => self.count("key, 15 before 16"),
                17 => self.count("key, 15 before 17"),
                23 => self.count("key, 15 before 23"),
                _ => {}
            },
            (16, _) if holds(train.cleared, turnout) => self.count("16 of a key on a cleared turnout"),
            (16, _) => self.count("16 of a second key"),
            (17, _) if named => self.count("17 of a key, not under agreed work"),
            (17, _) if worked => self.count("17 of a key, not named"),
            (23, Key::Tcl) if !run_over => self.count("23: key Tcl, exit zone"),
            (23, Key::Tcl) => self.count("23: key Tcl, run over"),
            (23, Key::Es) => self.count("23: key Es, run over"),
            _ => {}
        }
        match code {
            16 if !may => self.count("key, 16 before 23"),
            17 if named && !may => self.count("key, 17 before 23"),
            _ => {}
        }
    }

    fn accepted(&mut self, message: &Message, before: &Zone, after: &Zone) {
        let zone = usize::from(message.zone);
        let keys = standing(before).map_or(0, |train| train.keys);
        match message.kind {
            4 if (message.a | message.b) & keys != 0 => self.count("kind 4 accepted, naming a turnout with a key"),
            5 => self.next_train(zone, after),
            7 if message.d[0] == 1 && keys != 0 => self.count("clear ordered with a key"),
            8 | 9 => self.lapsed[zone] = (keys, message.kind),
            6 => self.regime(after),
            13 => {
                self.used(message, after);
                self.regime(after);
            }
            _ => {}
        }
    }

    fn used(&mut self, message: &Message, zone: &Zone) {
        let Some(train) = standing(zone) else {
            return;
        };
        let [turnout, key, ..] = message.d;
        self.count(match (holds(train.route.flank, turnout), Key::of(key)) {
            (true, Some(Key::Tcl)) => "key Tcl, flank, accepted",
            (true, _) => "key Es, flank, accepted",
            (false, _) => "key Es, exit zone, accepted",
        });
        self.count(if holds(zone.work.open(), turnout) {
            "key accepted on a turnout open to work"
        } else {
            "key accepted on a turnout not open to work"
        });
    }

    /// After a clearance or a key: a movement comes to be clear or at danger once.
    fn regime(&mut self, zone: &Zone) {
        let Some(train) = standing(zone) else {
            return;
        };
        let worked = train.route.named() & zone.work.agreed_turnouts();
        let (with_key, without) = (worked & train.keys != 0, worked & !train.keys != 0);
        match train.standing(worked).regime {
            Regime::Clear if !without => self.count("clear by keys alone"),
            Regime::Clear if !with_key => self.count("clear by clearances alone"),
            Regime::Clear => self.count("clear by keys and clearances"),
            Regime::Danger if with_key => self.count("danger beside a key"),
            Regime::Held if with_key => self.count("held beside a key"),
            _ => {}
        }
    }

    fn next_train(&mut self, number: usize, zone: &Zone) {
        let (keys, kind) = std::mem::take(&mut self.lapsed[number]);
        let lacking = standing(zone).map_or(0, |train| train.standing(zone.work.agreed_turnouts()).lacking);
        match kind {
            8 if lacking & keys != 0 => self.count("keys dropped by 8, the next train lacks again"),
            9 if lacking & keys != 0 => self.count("keys dropped by 9, the next train lacks again"),
            _ => {}
        }
    }

    /// A list is at its end.
    pub fn left(&mut self) {
        self.lapsed = [(0, 0); ZONES];
    }

    pub fn counts(&self) -> Vec<(String, u64)> {
        NAMES.iter().zip(self.counts).map(|(name, count)| (name.to_string(), count)).collect()
    }
}

pub fn standing<'z, 's>(zone: &'z Zone<'s>) -> Option<&'z Train<'s>> {
    match &zone.movement {
        Movement::Standing(train) => Some(train),
        Movement::None => None,
    }
}
