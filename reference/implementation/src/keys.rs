//! The dispatcher's release keys, Tcl and Es: which may be used where (23). KIND-13.4.

use crate::set::holds;
use crate::station::Route;

#[derive(Clone, Copy, Debug, PartialEq, Eq)]
pub enum Key {
    Tcl = 1,
    Es = 2,
}

impl Key {
    /// RECORD-3: "d1 is 1 for Tcl and 2 for Es".
    pub fn of(number: u8) -> Option<Key> {
        match number {
            1 => Some(Key::Tcl),
            2 => Some(Key::Es),
            _ => None,
        }
    }

    /// KIND-13.4: 23 "unless the turnout is flank, or is in the exit zone and the key is Es".
    pub fn may_release(self, route: &Route, turnout: u8) -> bool {
        holds(route.flank, turnout) || holds(route.exit_zone, turnout) && self == Key::Es
    }
}

#[cfg(test)]
mod tests {
    use super::*;
    use crate::set;

    #[test]
    fn numbers() {
        assert_eq!([0, 1, 2, 3, 255].map(Key::of), [None, Some(Key::Tcl), Some(Key::Es), None, None]);
    }

    #[test]
    fn which_key_where() {
        let sets = [&[0][..], &[1], &[2]].map(set::of);
        let route = Route { run_over: sets[0], flank: sets[1], exit_zone: sets[2], ..Route::default() };
        let by = |key: Key| [0, 1, 2, 3, 64].map(|turnout| key.may_release(&route, turnout));
        assert_eq!(by(Key::Tcl), [false, true, false, false, false]);
        assert_eq!(by(Key::Es), [false, true, true, false, false]);
    }
}
