//! What a zone holds, and the thirteen kinds: checks 15 to 23 in rising number, then the effect.
//! ZONE-1: "Each zone holds its work (none, asked or agreed), one movement, its recorder, its last accepted time."

use crate::clearance::Clearance;
use crate::keys::Key;
use crate::message::{Aspect, Content, Form, Message};
use crate::minutes;
use crate::movement::{Movement, Regime, Standing, Train};
use crate::refusal::{refuse, Refusal};
use crate::set::{holds, only, Set};
use crate::station::Station;
use crate::work::{Work, Works};

#[derive(Clone, Copy, Debug, PartialEq, Eq)]
pub struct Zone<'s> {
    pub work: Work,
    pub movement: Movement<'s>,
    pub recorder_working: bool,
    pub last: u32,
}

impl<'s> Zone<'s> {
    /// ZONE-2: "A fresh desk has no work and no movement in any zone, recorders working, times 0."
    pub fn fresh() -> Self {
        Zone { work: Work::None, movement: Movement::None, recorder_working: true, last: 0 }
    }

    /// How the movement of this train stands.
    pub fn standing(&self, train_id: u32) -> Result<Standing, Refusal> {
        Ok(self.movement.under(train_id)?.standing(self.work.agreed_turnouts()))
    }

    /// Checks 15 to 23 and the effect; returns the minutes. A refusal may leave `self` half changed:
    /// the desk hears on a copy.
    pub fn hear(&mut self, station: &'s Station, message: &Message, content: Content) -> Result<u32, Refusal> {
        let Message { zone, time, id, .. } = *message;
        match content {
            Content::WorkAsked { turnouts, form } => self.work_asked(station, zone, Works { id, form, turnouts })?,
            Content::Agreed => self.agreed(id, time)?,
            Content::Withdrawn => self.withdrawn(id)?,
            Content::DetectionOff { lost, portable } => self.detection_off(id, lost, portable)?,
            Content::MovementAsked { route } => self.movement_asked(station, zone, id, route)?,
            Content::Cleared(clearance) => self.cleared(station, id, clearance)?,
            Content::Ordered(aspect) => self.ordered(id, aspect)?,
            Content::Passed => self.passed(id)?,
            Content::Cancelled => self.cancelled(id)?,
            Content::PartRestored { turnouts } => self.part_restored(station, id, turnouts)?,
            Content::AllRestored => return self.all_restored(id, time),
            Content::Recorder { working } => self.recorder_working = working,
            Content::KeyUsed { turnout, key } => self.key_used(id, turnout, key)?,
        }
        // MINUTES-2: "every other answer has 0".
        Ok(0)
    }

    /// KIND-1.1, KIND-1.2: "16 work in zone; 17 a empty, outside the zone or splitting a group". Then KIND-1.3.
    fn work_asked(&mut self, station: &Station, zone: u8, works: Works) -> Result<(), Refusal> {
        refuse(self.work != Work::None, Refusal::Occupied)?;
        let empty = works.turnouts == 0;
        let outside = works.turnouts & !station.of_zone(zone) != 0;
        let splitting = station.splits_group(works.turnouts);
        refuse(empty || outside || splitting, Refusal::Place)?;
        self.work = Work::Asked(works);
        Ok(())
    }

    /// KIND-2.1, KIND-2.2, KIND-2.3: "15; 18 agreed already; 19". KIND-2.4: "agreed, at this time".
    fn agreed(&mut self, id: u32, time: u32) -> Result<(), Refusal> {
        self.work.under(id)?;
        let Work::Asked(works) = self.work else {
            return Err(Refusal::Stage);
        };
        refuse(self.movement.names(works.turnouts), Refusal::Conflict)?;
        self.work = Work::Agreed { works, since: time, open: 0 };
        Ok(())
    }

    /// KIND-3.1, KIND-3.2: "15; 18 agreed". KIND-3.3: "no work".
    fn withdrawn(&mut self, id: u32) -> Result<(), Refusal> {
        self.work.under(id)?;
        refuse(matches!(self.work, Work::Agreed { .. }), Refusal::Stage)?;
        self.work = Work::None;
        Ok(())
    }

    /// KIND-4.1, KIND-4.2, KIND-4.3, KIND-4.4, KIND-4.5: "15; 17 both empty, overlapping or outside the work; 18 not
    /// agreed; 19 a cleared turnout in a or b; 22 b not empty under verbal". KIND-4.6: "a, b open to work".
    fn detection_off(&mut self, id: u32, lost: Set, portable: Set) -> Result<(), Refusal> {
        let works = self.work.under(id)?;
        let both_empty = lost | portable == 0;
        let overlapping = lost & portable != 0;
        let outside = (lost | portable) & !works.turnouts != 0;
        refuse(both_empty || overlapping || outside, Refusal::Place)?;
        let Work::Agreed { open, .. } = &mut self.work else {
            return Err(Refusal::Stage);
        };
        refuse((lost | portable) & self.movement.cleared() != 0, Refusal::Conflict)?;
        refuse(portable != 0 && works.form == Form::RecordedVerbal, Refusal::Regime)?;
        *open |= lost | portable;
        Ok(())
    }

    /// KIND-5.1, KIND-5.2: "16 movement in zone; 17 route not below R or of another zone". KIND-5.3: "movement asked".
    fn movement_asked(&mut self, station: &'s Station, zone: u8, id: u32, route: u8) -> Result<(), Refusal> {
        refuse(self.movement != Movement::None, Refusal::Occupied)?;
        let number = route;
        let below = station.routes.get(usize::from(number));
        let route = below.filter(|route| route.zone == zone).ok_or(Refusal::Place)?;
        self.movement = Movement::Standing(Train { id, number, route, order: 0, cleared: 0, efficient: 0, keys: 0 });
        Ok(())
    }

    /// The checks that a clearance and a key share, and the train that has them met. KIND-6.1, KIND-6.2, KIND-6.3 and
    /// KIND-13.1, KIND-13.2, KIND-13.3: "15; 16 cleared already; 17 not under agreed work or not named"; "A second key
    /// or a clearance on it gets 16."
    fn unsettled(&self, id: u32, turnout: u8) -> Result<Train<'s>, Refusal> {
        let train = self.movement.under(id)?;
        refuse(holds(train.settled(), turnout), Refusal::Occupied)?;
        let worked = holds(self.work.agreed_turnouts(), turnout);
        let named = holds(train.route.named(), turnout);
        refuse(!worked || !named, Refusal::Place)?;
        Ok(train)
    }

    /// KIND-6.1, KIND-6.2, KIND-6.3, KIND-6.4, KIND-6.5: "15; 16 cleared already; 17 not under agreed work or not
    /// named; 20; 21". KIND-6.6: "cleared, shut to work".
    fn cleared(&mut self, station: &Station, id: u32, clearance: Clearance) -> Result<(), Refusal> {
        let n = clearance.turnout;
        let mut train = self.unsettled(id, n)?;
        let turnout = station.turnout(n).ok_or(Refusal::Place)?;
        refuse(!clearance.fits(train.route, turnout.drive, station.in_group(n)), Refusal::Unfit)?;
        refuse(!clearance.channel_fits(self.recorder_working), Refusal::Channel)?;
        train.cleared |= only(n);
        if clearance.all_efficient() {
            train.efficient |= only(n);
        }
        self.movement = Movement::Standing(train);
        self.work.shut(only(n));
        Ok(())
    }

    /// KIND-13.1, KIND-13.2, KIND-13.3: "checked like a clearance for 15, 16 and 17", then KIND-13.4, 23. KIND-13.5:
    /// the turnout is not cleared, and open to work as it was: "the gang may go on working there".
    fn key_used(&mut self, id: u32, turnout: u8, key: Key) -> Result<(), Refusal> {
        let mut train = self.unsettled(id, turnout)?;
        refuse(!key.may_release(train.route, turnout), Refusal::Key)?;
        train.keys |= only(turnout);
        self.movement = Movement::Standing(train);
        Ok(())
    }

    /// KIND-7.1, KIND-7.2, KIND-7.3: "15; 18 ordered already; 22"; "Order 22: clear needs clear; danger needs not
    /// held." Then KIND-7.4.
    fn ordered(&mut self, id: u32, aspect: Aspect) -> Result<(), Refusal> {
        let train = self.movement.under(id)?;
        refuse(train.ordered(), Refusal::Stage)?;
        let regime = self.standing(id)?.regime;
        let fits = match aspect {
            Aspect::Clear => regime == Regime::Clear,
            Aspect::Danger => regime != Regime::Held,
        };
        refuse(!fits, Refusal::Regime)?;
        self.movement = Movement::Standing(Train { order: aspect as u8, ..train });
        Ok(())
    }

    /// KIND-8.1, KIND-8.2: "15; 18 not ordered". KIND-8.3: "no movement or clearance", nor key.
    fn passed(&mut self, id: u32) -> Result<(), Refusal> {
        let train = self.movement.under(id)?;
        refuse(!train.ordered(), Refusal::Stage)?;
        self.movement = Movement::None;
        Ok(())
    }

    /// KIND-9.1, KIND-9.2: "15; 18 ordered". KIND-9.3: "no movement or clearance", nor key.
    fn cancelled(&mut self, id: u32) -> Result<(), Refusal> {
        let train = self.movement.under(id)?;
        refuse(train.ordered(), Refusal::Stage)?;
        self.movement = Movement::None;
        Ok(())
    }

    /// KIND-10.1, KIND-10.2, KIND-10.3, KIND-10.4, KIND-10.5: "15; 17 a empty, not a proper part of the work, or
    /// splitting a group; 18 not agreed; 19; 22 under M.45 (2.13)". KIND-10.6: "a leaves the work, shut to work".
    fn part_restored(&mut self, station: &Station, id: u32, part: Set) -> Result<(), Refusal> {
        let works = self.work.under(id)?;
        let proper_part = part & !works.turnouts == 0 && part != works.turnouts;
        let splitting = station.splits_group(part);
        refuse(part == 0 || !proper_part || splitting, Refusal::Place)?;
        let Work::Agreed { works, .. } = &mut self.work else {
            return Err(Refusal::Stage);
        };
        refuse(self.movement.names(part), Refusal::Conflict)?;
        refuse(works.form == Form::M45, Refusal::Regime)?;
        works.turnouts &= !part;
        self.work.shut(part);
        Ok(())
    }

    /// KIND-11.1, KIND-11.2, KIND-11.3: "15; 18 not agreed; 19". KIND-11.4: "no work". Minutes since agreement, to the
    /// nearest (MINUTES-1). VALUE-5: "an agreement later than the restoration gives 0 minutes".
    fn all_restored(&mut self, id: u32, time: u32) -> Result<u32, Refusal> {
        let works = self.work.under(id)?;
        let Work::Agreed { since, .. } = self.work else {
            return Err(Refusal::Stage);
        };
        refuse(self.movement.names(works.turnouts), Refusal::Conflict)?;
        self.work = Work::None;
        Ok(minutes::nearest(time.saturating_sub(since)))
    }
}
