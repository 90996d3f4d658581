//! Random lists of records: mostly a sensible next message from the state of the desk,
//! mixed with untimely, slightly wrong and meaningless ones. Those about a movement stand in `train_lists`.

use crate::near_misses::near_miss;
use crate::rng::Rng;
use crate::train_lists::any_clearance;
use crate::{group_lists, times};
use reference::builders;
use reference::desk::Desk;
use reference::message::{Form, Message, RECORD};
use reference::movement::{Movement, Train};
use reference::set::{only, Set};
use reference::station::Station;
use reference::work::{Work, Works};
use reference::zone::Zone;

/// The zones that a list mostly talks of, and the ids in use.
pub struct Talk {
    zones: Vec<u8>,
    forms: [u32; 3],
    pub trains: [u32; 3],
}

impl Talk {
    pub fn new(rng: &mut Rng, station: &Station) -> Talk {
        let busy = rng.within(1..=3);
        let zones = (0..busy).map(|_| station.turnouts[rng.index(station.turnouts.len())].zone).collect();
        let mut id = || match rng.within(0..=9) {
            0 => u32::MAX - rng.within(0..=2),
            1 => rng.next() as u32 | 1,
            _ => rng.within(1..=9),
        };
        Talk { zones, forms: [id(), id(), id()], trains: [id(), id(), id()] }
    }

    /// The same ids, in these zones.
    pub fn in_zones(&self, zones: Vec<u8>) -> Talk {
        Talk { zones, ..*self }
    }

    /// The next record of the list.
    pub fn next(&self, rng: &mut Rng, desk: &Desk) -> [u8; RECORD] {
        let zone = rng.pick(&self.zones);
        let state = desk.zone(zone).expect("a zone of the station");
        let station = desk.station();
        let place = Place { talk: self, station, zone, state };
        let sensible = |rng: &mut Rng| {
            let message = place.sensible(rng);
            message.in_zone(zone).at(place.time(rng, message.kind))
        };
        match rng.within(0..=99) {
            0..=61 => sensible(rng).to_bytes(),
            62..=79 => place.untimely(rng).in_zone(zone).at(times::after(rng, state.last)).to_bytes(),
            80..=94 => {
                let message = sensible(rng);
                near_miss(rng, message, state.last).to_bytes()
            }
            95..=97 => {
                let mut record = sensible(rng).to_bytes();
                record[rng.index(RECORD)] = rng.byte();
                record
            }
            _ => {
                let mut record = [0; RECORD];
                record.copy_from_slice(&rng.bytes(RECORD));
                record[0] %= 16;
                record
            }
        }
    }
}

/// A zone of the desk, as the generator sees it.
pub struct Place<'p, 's> {
    pub talk: &'p Talk,
    pub station: &'s Station,
    pub zone: u8,
    pub state: &'p Zone<'s>,
}

impl Place<'_, '_> {
    /// A message that mostly will be accepted.
    fn sensible(&self, rng: &mut Rng) -> Message {
        match rng.within(0..=99) {
            0..=3 => builders::recorder(u8::from(!self.state.recorder_working)),
            4..=43 => group_lists::perhaps_split(self.about_work(rng), rng, self.station),
            _ => self.about_movement(rng),
        }
    }

    /// When it is heard; all restored often at half a minute, or beside it.
    fn time(&self, rng: &mut Rng, kind: u8) -> u32 {
        match self.state.work {
            Work::Agreed { since, .. } if kind == 11 && rng.chance(40) => times::near_half(rng, since, self.state.last),
            _ => times::after(rng, self.state.last),
        }
    }

    fn about_work(&self, rng: &mut Rng) -> Message {
        match self.state.work {
            Work::None => {
                let turnouts = self.whole_groups(self.some(rng, self.station.of_zone(self.zone)));
                let form = rng.pick(&[1, 2]);
                Message { a: turnouts, ..builders::work_asked(rng.pick(&self.talk.forms), form, &[]) }
            }
            Work::Asked(works) if rng.chance(85) => builders::agreed(works.id),
            Work::Asked(works) => builders::withdrawn(works.id),
            Work::Agreed { works, .. } => match rng.weighted(&[(5, 4), (part_weight(works.form), 10), (2, 11)]) {
                4 => self.detection_off(rng, works),
                10 => Message { a: self.part(rng, works), ..builders::part_restored(works.id, &[]) },
                _ => builders::all_restored(works.id),
            },
        }
    }

    fn detection_off(&self, rng: &mut Rng, works: Works) -> Message {
        let free = works.turnouts & !self.train().map_or(0, |train| train.cleared);
        let named = self.some(rng, if free == 0 { works.turnouts } else { free });
        let portable = if works.form == Form::M45 || rng.chance(10) { rng.part(named, 40) } else { 0 };
        Message { a: named & !portable, b: portable, ..builders::detection_off(works.id, &[], &[]) }
    }

    /// Groups and turnouts of the work that no movement names, if there are such.
    fn part(&self, rng: &mut Rng, works: Works) -> Set {
        let named = self.train().map_or(0, |train| train.route.named());
        let free = works.turnouts & !self.whole_groups(named);
        let part = self.whole_groups(self.some(rng, if free == 0 { works.turnouts } else { free }));
        // Only a damaged desk has work on no turnout.
        if part != works.turnouts || part == 0 {
            return part;
        }
        part & !self.whole_groups(only(rng.member(part)))
    }

    /// A message of any kind that reads (a clearance's d5 may be 2), whatever the state.
    fn untimely(&self, rng: &mut Rng) -> Message {
        let kind = rng.within(1..=13) as u8;
        let form = match self.state.work {
            Work::Asked(works) | Work::Agreed { works, .. } if rng.chance(90) => works.id,
            _ => rng.pick(&self.talk.forms),
        };
        let train = match self.train() {
            Some(train) if rng.chance(90) => train.id,
            _ => rng.pick(&self.talk.trains),
        };
        let id = match kind {
            5..=9 | 13 => train,
            12 => 0,
            _ => form,
        };
        let zone_turnouts = self.station.of_zone(self.zone);
        let base = builders::message(kind, id);
        match kind {
            1 => Message { a: self.any_part(rng, zone_turnouts), ..base.d(0, rng.pick(&[1, 2])) },
            10 => Message { a: self.any_part(rng, zone_turnouts), ..base },
            4 => {
                let a = self.any_part(rng, zone_turnouts);
                Message { a, b: self.any_part(rng, zone_turnouts & !a), ..base }
            }
            5 => base.d(0, below(rng, self.station.routes.len())),
            6 => {
                let turnout = self.any_turnout(rng);
                any_clearance(rng, base.d(0, turnout))
            }
            7 => base.d(0, rng.pick(&[1, 2])),
            13 => base.d(0, self.any_turnout(rng)).d(1, rng.pick(&[1, 2])),
            12 => base.d(0, rng.pick(&[0, 1])),
            _ => base,
        }
    }

    /// Mostly one that the standing movement's route names.
    fn any_turnout(&self, rng: &mut Rng) -> u8 {
        match self.train().map_or(0, |train| train.route.named()) {
            named if named != 0 && rng.chance(80) => rng.member(named),
            _ => below(rng, self.station.turnouts.len()),
        }
    }

    pub fn train(&self) -> Option<&Train<'_>> {
        match &self.state.movement {
            Movement::Standing(train) => Some(train),
            Movement::None => None,
        }
    }

    /// Some turnouts of a set, at least one where there is one.
    fn some(&self, rng: &mut Rng, set: Set) -> Set {
        if set == 0 {
            return 0;
        }
        let percent = rng.pick(&[10, 50, 90]);
        only(rng.member(set)) | rng.part(set, percent)
    }

    fn any_part(&self, rng: &mut Rng, set: Set) -> Set {
        match rng.within(0..=9) {
            0 => 0,
            1 => self.state.work.agreed_turnouts(),
            2..=5 => self.whole_groups(rng.part(set, 40)),
            6 => rng.part(self.state.work.agreed_turnouts(), 50),
            _ => rng.part(set, 30),
        }
    }

    /// The set with the whole of each group it touches.
    fn whole_groups(&self, set: Set) -> Set {
        self.station.groups().split_by(set).fold(set, |whole, (_, group)| whole | group)
    }
}

/// A number below the limit, or the limit; at most 63.
fn below(rng: &mut Rng, limit: usize) -> u8 {
    rng.index((limit + 1).min(64)) as u8
}

/// Part restoration is for recorded verbal agreements.
fn part_weight(form: Form) -> u32 {
    match form {
        Form::RecordedVerbal => 4,
        _ => 1,
    }
}
