//! The definitions of the history, for demand 3 (DEMAND-3): HIST-2 to HIST-8, as plain searches over the accepted
//! messages of one zone (HIST-1).

use crate::message::Message;
use crate::set::{holds, members, only, Set};
use crate::station::{Route, Station};

/// The accepted messages of a zone, in order.
#[derive(Clone, Copy)]
pub struct History<'m>(pub &'m [Message]);

impl<'m> History<'m> {
    fn after(&self, index: usize) -> &'m [Message] {
        &self.0[index + 1..]
    }

    fn last_of(&self, kind: u8) -> Option<usize> {
        self.0.iter().rposition(|message| message.kind == kind)
    }

    /// Where the 2 stands by which the turnout is under agreed work. HIST-2: "the last kind 1 names the turnout,
    /// a 2 follows it, and after it no 10 naming the turnout and no 11".
    fn agreement(&self, turnout: u8) -> Option<usize> {
        let asked = self.last_of(1)?;
        if !holds(self.0[asked].a, turnout) {
            return None;
        }
        let agreed = asked + 1 + self.after(asked).iter().position(|message| message.kind == 2)?;
        let ended = self.after(agreed).iter().any(|message| match message.kind {
            10 => holds(message.a, turnout),
            11 => true,
            _ => false,
        });
        (!ended).then_some(agreed)
    }

    pub fn under_agreed_work(&self, turnout: u8) -> bool {
        self.agreement(turnout).is_some()
    }

    /// Where the standing 5 is. HIST-3: "Standing: the last 5 has no 8 or 9 after it."
    fn standing_at(&self) -> Option<usize> {
        let asked = self.last_of(5)?;
        let ended = self.after(asked).iter().any(|message| matches!(message.kind, 8 | 9));
        (!ended).then_some(asked)
    }

    pub fn standing(&self) -> Option<&'m Message> {
        self.standing_at().map(|index| &self.0[index])
    }

    /// HIST-4: "Cleared: in a standing movement, a 6 naming the turnout after that 5."
    pub fn cleared(&self, turnout: u8) -> bool {
        self.standing_at().is_some_and(|asked| self.after(asked).iter().any(|message| clears(message, turnout)))
    }

    /// HIST-5: "Open to work: under agreed work, with a 4 naming it in a or b after that 2
    /// and no 6 naming it after that 4."
    pub fn open_to_work(&self, turnout: u8) -> bool {
        let Some(agreed) = self.agreement(turnout) else {
            return false;
        };
        (agreed + 1..self.0.len()).any(|index| {
            let message = &self.0[index];
            let opens = message.kind == 4 && holds(message.a | message.b, turnout);
            opens && !self.after(index).iter().any(|later| clears(later, turnout))
        })
    }

    /// HIST-6: "Of its route: named by the route in that 5's d0."
    pub fn route<'s>(&self, station: &'s Station) -> Option<&'s Route> {
        station.routes.get(usize::from(self.standing()?.d[0]))
    }

    /// HIST-7: "Clearance for that train, in the route's position, all efficient: after that 5 a 6 naming the turnout,
    /// with the same id, d2 1 if in the route's reverse and else 0, declaration 1 or 2"; "and, on a turnout of a
    /// group, d5 1".
    pub fn good_clearance(&self, station: &Station, turnout: u8) -> bool {
        let (Some(asked), Some(route)) = (self.standing_at(), self.route(station)) else {
            return false;
        };
        let position = u8::from(holds(route.reverse, turnout));
        let in_group = station.in_group(turnout);
        self.after(asked).iter().any(|message| {
            clears(message, turnout)
                && message.id == self.0[asked].id
                && message.d[2] == position
                && matches!(message.d[1], 1 | 2)
                && (!in_group || message.d[5] == 1)
        })
    }

    /// HIST-8, a key for that train: after that 5 a 13 naming the turnout, with the same id.
    pub fn key(&self, turnout: u8) -> bool {
        self.standing_at().is_some_and(|asked| {
            let mut later = self.after(asked).iter();
            later.any(|message| message.kind == 13 && message.d[0] == turnout && message.id == self.0[asked].id)
        })
    }

    /// Has the turnout its efficient clearance or its key? HIST-11.
    pub fn released(&self, station: &Station, turnout: u8) -> bool {
        self.good_clearance(station, turnout) || self.key(turnout)
    }

    /// The turnouts of its route under agreed work that are neither cleared nor have a key.
    pub fn lacking(&self, station: &Station) -> Set {
        let named = self.route(station).map_or(0, Route::named);
        let lacks = |&turnout: &u8| self.under_agreed_work(turnout) && !self.cleared(turnout) && !self.key(turnout);
        members(named).filter(lacks).fold(0, |set, turnout| set | only(turnout))
    }
}

/// HIST-1: "a 6 [names] its d0".
fn clears(message: &Message, turnout: u8) -> bool {
    message.kind == 6 && message.d[0] == turnout
}

#[cfg(test)]
mod tests {
    use super::*;
    use crate::builders::*;
    use crate::desk::Desk;
    use crate::movement::Regime;
    use crate::{set, sheet};

    fn station() -> Station {
        sheet::read(&station_k().bytes()).expect("station K reads")
    }

    /// The history says of station K's journal what the desk answers.
    #[test]
    fn of_the_journal() {
        let station = station();
        let mut desk = Desk::fresh(&station);
        let mut accepted = Vec::new();
        for message in journal_k() {
            if desk.hear(&message).is_ok() {
                accepted.push(message);
            }
            let history = History(&accepted);
            for turnout in 0..3 {
                assert_eq!(desk.work_question(turnout), Ok(history.open_to_work(turnout)));
                assert!(!(history.open_to_work(turnout) && history.cleared(turnout)));
            }
            if let Some(asked) = history.standing() {
                let clear = desk.movement_question(0, asked.id).expect("stands").regime == Regime::Clear;
                let good = (0..3)
                    .filter(|&turnout| history.route(&station).is_some_and(|route| holds(route.named(), turnout)))
                    .filter(|&turnout| history.under_agreed_work(turnout))
                    .all(|turnout| history.released(&station, turnout));
                assert_eq!(clear, good);
            }
        }
        assert_eq!(accepted.len(), 8);
    }

    /// Turnout 2, flank, at work, and train 512 asked for.
    fn asked_over_2() -> Vec<Message> {
        vec![work_asked(7, 1, &[2]), agreed(7), detection_off(7, &[2], &[]), movement_asked(512, 0)]
    }

    #[test]
    fn of_keys() {
        let (station, asked) = (station(), asked_over_2());
        let then = |list: &[Message], more: &[Message]| [list, more].concat();
        let by = |list: &[Message]| {
            let history = History(list);
            (history.key(2), history.released(&station, 2), history.cleared(2), history.open_to_work(2))
        };
        let keyed = then(&asked, &[key_used(512, 2, 1)]);
        assert_eq!(by(&asked), (false, false, false, true));
        assert_eq!(by(&keyed), (true, true, false, true));
        assert_eq!(History(&asked).lacking(&station), set::of(&[2]));
        assert_eq!(History(&keyed).lacking(&station), 0);
        assert_eq!(by(&then(&keyed, &[cancelled(512), movement_asked(513, 0)])), (false, false, false, true));
        assert!(!History(&then(&asked, &[key_used(513, 2, 1)])).key(2)); // another train's
        assert!(!History(&then(&keyed, &[cancelled(512)])).key(2));
    }
}
