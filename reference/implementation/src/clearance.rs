//! Clearances of turnouts for a train: what fits (20, KIND-6.4), by which channel (21, KIND-6.5). FIT-1, FIT-2, FIT-3:
//! "Clearances fit (20) when .."; FIT-4: the whole group.

use crate::set::holds;
use crate::station::{Drive, Route};

#[derive(Clone, Copy, Debug, PartialEq, Eq)]
pub enum Position {
    Normal,
    Reverse,
}

#[derive(Clone, Copy, Debug, PartialEq, Eq)]
pub enum Clamp {
    None,
    Clamp,
    Attended,
}

#[derive(Clone, Copy, Debug, PartialEq, Eq)]
pub enum Channel {
    Voice,
    Written,
}

#[derive(Clone, Copy, Debug, PartialEq, Eq)]
pub struct Clearance {
    pub turnout: u8,
    /// 1 to 9, as in Annex C.
    pub declaration: u8,
    pub position: Position,
    pub clamp: Clamp,
    pub channel: Channel,
    /// FIT-4: "By 1 the maintainer says that the declaration covers the whole group".
    pub covers_group: bool,
}

impl Clearance {
    /// FIT-1, FIT-2, FIT-3: "Clearances fit (20) when d2 is the route's position, d1 fits the drive .. and so does d3."
    /// FIT-4: "0 or 1 where the other is due is 20".
    pub fn fits(&self, route: &Route, drive: Drive, in_group: bool) -> bool {
        self.position == route.position(self.turnout)
            && self.fits_drive(drive)
            && self.clamp_fits(holds(route.run_over, self.turnout))
            && self.cover_fits(in_group)
    }

    /// FIT-2: "1, 2 either; 3-6 electric; 7-9 hand; Annex C".
    pub fn fits_drive(&self, drive: Drive) -> bool {
        match self.declaration {
            1 | 2 => true,
            3..=6 => drive == Drive::Electric,
            _ => drive == Drive::Hand,
        }
    }

    /// FIT-3: "For 4, 6, 9: 1 if run over, else 0. For 8: 1 or 2 if run over, else 0 .. Others: 0."
    pub fn clamp_fits(&self, run_over: bool) -> bool {
        match (self.declaration, run_over) {
            (4 | 6 | 9, true) => self.clamp == Clamp::Clamp,
            (8, true) => self.clamp != Clamp::None,
            _ => self.clamp == Clamp::None,
        }
    }

    /// FIT-4: "with declaration 1 or 2 on a turnout of a group, of whatever size, d5 is 1; in every other clearance d5
    /// is 0".
    pub fn cover_fits(&self, in_group: bool) -> bool {
        self.covers_group == (in_group && self.all_efficient())
    }

    /// FIT-5: "Declarations 1 and 2 mean all efficient".
    pub fn all_efficient(&self) -> bool {
        self.declaration <= 2
    }

    /// KIND-6.5: "Check 21: voice needs a working recorder, written one that is out (3.26)."
    pub fn channel_fits(&self, recorder_working: bool) -> bool {
        match self.channel {
            Channel::Voice => recorder_working,
            Channel::Written => !recorder_working,
        }
    }
}
