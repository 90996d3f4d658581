//! The station that an accepted sheet gives: turnouts, routes, zones.

use crate::clearance::Position;
use crate::group::{Groups, ALONE};
use crate::set::{holds, only, Set};

#[derive(Clone, Copy, Debug, PartialEq, Eq)]
pub enum Drive {
    Electric,
    /// By hand, with key lock.
    Hand,
}

#[derive(Clone, Debug, PartialEq, Eq)]
pub struct Turnout {
    pub zone: u8,
    /// The number of its group, 0 to 31; none where it is alone.
    pub group: Option<u8>,
    pub drive: Drive,
}

#[derive(Clone, Copy, Debug, Default, PartialEq, Eq)]
pub struct Route {
    pub zone: u8,
    pub run_over: Set,
    pub flank: Set,
    pub exit_zone: Set,
    pub reverse: Set,
}

impl Route {
    /// SHEET-5: "their union is what the route names".
    pub fn named(&self) -> Set {
        self.run_over | self.flank | self.exit_zone
    }

    pub fn position(&self, turnout: u8) -> Position {
        if holds(self.reverse, turnout) {
            Position::Reverse
        } else {
            Position::Normal
        }
    }
}

#[derive(Clone, Debug, PartialEq, Eq)]
pub struct Station {
    pub zones: u8,
    pub turnouts: Vec<Turnout>,
    pub routes: Vec<Route>,
}

impl Station {
    pub fn turnout(&self, n: u8) -> Option<&Turnout> {
        self.turnouts.get(usize::from(n))
    }

    /// The turnouts of the station in a zone.
    pub fn of_zone(&self, zone: u8) -> Set {
        let numbered = (0u8..).zip(&self.turnouts);
        numbered.filter(|(_, turnout)| turnout.zone == zone).fold(0, |set, (n, _)| set | only(n))
    }

    /// The groups among its turnouts, as their numbers stand.
    pub fn groups(&self) -> Groups {
        Groups::of(self.turnouts.iter().map(|turnout| turnout.group.unwrap_or(ALONE)))
    }

    /// FIT-4: "a turnout of a group, of whatever size". By the station alone.
    pub fn in_group(&self, n: u8) -> bool {
        self.groups().of_turnout(n) != 0
    }

    /// KIND-1.2, KIND-10.2: does the set split a group?
    pub fn splits_group(&self, set: Set) -> bool {
        self.groups().splits(set)
    }
}

#[cfg(test)]
mod tests {
    use super::*;
    use crate::builders::{station_k, station_k_in_version_2};
    use crate::sheet;

    #[test]
    fn turnouts_of_groups() {
        for k in [station_k(), station_k_in_version_2()] {
            let k = sheet::read(&k.bytes()).expect("station K reads");
            assert_eq!([0, 1, 2, 3, 63, 255].map(|n| k.in_group(n)), [true, true, false, false, false, false]);
        }
    }

    /// In a station that no sheet gave, VALUE-2: number 40 and a number that one turnout carries read as alone.
    #[test]
    fn odd_numbers() {
        let k = sheet::read(&station_k().bytes()).expect("station K reads");
        let turnout = |group| Turnout { zone: 0, group, drive: Drive::Electric };
        let turnouts = [Some(40), Some(40), Some(3), Some(31), Some(31), None, None, Some(255), Some(255)].map(turnout);
        let odd = Station { turnouts: turnouts.to_vec(), ..k };
        let grouped: Vec<u8> = (0..=255).filter(|&n| odd.in_group(n)).collect();
        assert_eq!(grouped, [3, 4]);
        let below = Station { turnouts: turnouts[..4].to_vec(), ..odd };
        assert!(!(0..=255).any(|n| below.in_group(n))); // the second carrier of 31 is not below P
    }
}
