//! Messages of a random list about the movement of a zone: asked, cleared, released by a key, ordered, ended.

use crate::lists::Place;
use crate::rng::Rng;
use reference::builders;
use reference::clearance::Position;
use reference::message::Message;
use reference::movement::Train;
use reference::set::{holds, Set};
use reference::station::Drive;

impl Place<'_, '_> {
    pub fn about_movement(&self, rng: &mut Rng) -> Message {
        let Some(train) = self.train() else {
            let routes: Vec<u8> = (0u8..)
                .zip(&self.station.routes)
                .filter(|(_, route)| route.zone == self.zone)
                .map(|(n, _)| n)
                .collect();
            let route = if routes.is_empty() { rng.within(0..=63) as u8 } else { rng.pick(&routes) };
            return builders::movement_asked(rng.pick(&self.talk.trains), route);
        };
        let lacking = train.standing(self.state.work.agreed_turnouts()).lacking;
        let ended = if train.ordered() { builders::passed(train.id) } else { builders::cancelled(train.id) };
        match rng.within(0..=19) {
            0 | 1 => ended,
            2 | 3 => self.odd_key(rng, train),
            4 if train.keys != 0 => self.clearance(rng, train, train.keys),
            _ if lacking != 0 => self.release(rng, train, lacking),
            _ if train.ordered() => ended,
            _ => builders::ordered(train.id, if train.efficient == train.cleared { rng.pick(&[1, 1, 2]) } else { 2 }),
        }
    }

    /// A clearance or, where one may be used, a key.
    fn release(&self, rng: &mut Rng, train: &Train, lacking: Set) -> Message {
        match lacking & (train.route.flank | train.route.exit_zone) {
            beside if beside != 0 && rng.chance(45) => key(rng, train, beside),
            _ => self.clearance(rng, train, lacking),
        }
    }

    /// A key on a turnout that mostly may have none: cleared, with a key already, run over, in the exit zone, named but
    /// not worked, worked but not named, any; now and then for another train.
    fn odd_key(&self, rng: &mut Rng, train: &Train) -> Message {
        let (route, worked) = (train.route, self.state.work.agreed_turnouts());
        let named = route.named();
        let sets = [
            train.cleared,
            train.keys,
            route.run_over & worked,
            route.exit_zone & worked,
            named & !worked,
            worked & !named,
            Set::MAX,
        ];
        let sets: Vec<Set> = sets.into_iter().filter(|&set| set != 0).collect();
        let set = rng.pick(&sets);
        let id = if rng.chance(20) { train.id.wrapping_add(1).max(1) } else { train.id };
        builders::key_used(id, rng.member(set), rng.pick(&[1, 2]))
    }

    /// A clearance that fits, but for d5 now and then.
    fn clearance(&self, rng: &mut Rng, train: &Train, lacking: Set) -> Message {
        let turnout = rng.member(lacking);
        let electric = self.station.turnout(turnout).is_some_and(|turnout| turnout.drive == Drive::Electric);
        let lesser = if electric { rng.pick(&[3, 4, 5, 6]) } else { rng.pick(&[7, 8, 9]) };
        let declaration = if rng.chance(70) { rng.pick(&[1, 2]) } else { lesser };
        let clamp = match (holds(train.route.run_over, turnout), declaration) {
            (true, 4 | 6 | 9) => 1,
            (true, 8) => rng.pick(&[1, 2]),
            _ => 0,
        };
        let position = u8::from(train.route.position(turnout) == Position::Reverse);
        let channel = if self.state.recorder_working { 1 } else { 2 };
        // FIT-4: "with declaration 1 or 2 on a turnout of a group, of whatever size, d5 is 1; in every other .. 0".
        let due = u8::from(declaration <= 2 && self.station.in_group(turnout));
        let cover = rng.weighted(&[(85, due), (12, 1 - due), (3, 2)]);
        builders::cleared(train.id, [turnout, declaration, position, clamp, channel]).d(5, cover)
    }
}

/// A key on one of these turnouts, beside those run over: mostly one that may be used.
fn key(rng: &mut Rng, train: &Train, beside: Set) -> Message {
    let turnout = rng.member(beside);
    let key = if holds(train.route.flank, turnout) { rng.pick(&[1, 2]) } else { rng.pick(&[1, 2, 2, 2]) };
    builders::key_used(train.id, turnout, key)
}

/// A clearance with any details that read, but for a d5 of 2 now and then; d0 stays.
pub fn any_clearance(rng: &mut Rng, message: Message) -> Message {
    let declaration = rng.within(1..=9) as u8;
    let (position, clamp) = (rng.within(0..=1) as u8, rng.within(0..=2) as u8);
    let (channel, cover) = (rng.pick(&[1, 2]), rng.weighted(&[(5, 0), (5, 1), (1, 2)]));
    Message { d: [message.d[0], declaration, position, clamp, channel, cover], ..message }
}
