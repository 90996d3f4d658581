//! Counts of what occurred of FIT-4: d5 of clearances on turnouts alone and of groups, by the group's size.

use reference::desk::Desk;
use reference::message::{Message, RECORD};
use reference::movement::{Movement, Regime};
use reference::refusal::{number, Refusal};
use reference::set::{members, Set};

const SIZES: [&str; 5] =
    ["alone", "of a group of two", "of a group of three", "of a group of 4 to 7", "of a group of 8"];
const UNFIT: [&str; 5] = [
    "declaration 1 or 2 in a group of two, d5 0",
    "declaration 1 or 2 in a larger group, d5 0",
    "declaration 3 to 9 in a group of two, d5 1",
    "declaration 3 to 9 in a larger group, d5 1",
    "any declaration on a turnout alone, d5 1",
];
const CLEAR: [&str; 2] =
    ["clear with a worked turnout of a group of two", "clear with a worked turnout of a larger group"];

#[derive(Default)]
pub struct Covers {
    /// Clearances that come as far as check 20, by the size of the group and d5.
    clearances: [[u64; 2]; 5],
    /// Clearances that would come as far but for a d5 of 2: alone, and in a group.
    no_field: [u64; 2],
    /// Clearances that are 20 for d5 alone, by what is wrong with it.
    unfit: [u64; 5],
    /// Messages of other kinds that are 13 for a d5 of 1 alone.
    other_kinds: u64,
    /// Movements left clear after a list, with a turnout of a group among those under agreed work.
    clear: [u64; 2],
}

/// Where the size stands in `SIZES`.
fn place(size: usize) -> usize {
    match size {
        0 => 0,
        2 => 1,
        3 => 2,
        4..=7 => 3,
        _ => 4,
    }
}

/// How many turnouts are in the turnout's group; 0 for alone.
fn size(desk: &Desk, turnout: u8) -> usize {
    desk.station().groups().of_turnout(turnout).count_ones() as usize
}

impl Covers {
    /// A record, and the desk that is to hear it.
    pub fn heard(&mut self, desk: &Desk, record: &[u8; RECORD]) {
        let message = Message::from_bytes(record);
        let d5 = message.d[5];
        match message.kind {
            6 if d5 <= 2 => self.clearance(desk, &message),
            6 => {}
            _ => self.other_kinds += u64::from(d5 == 1 && message.d(5, 0).content().is_ok()),
        }
    }

    fn clearance(&mut self, desk: &Desk, message: &Message) {
        let code = |d5: u8| number(&desk.clone().hear(&message.d(5, d5)));
        let (unfit, channel) = (Refusal::Unfit.number(), Refusal::Channel.number());
        let codes = [code(0), code(1)];
        if !codes.iter().all(|code| [0, unfit, channel].contains(code)) {
            return;
        }
        let [turnout, declaration, .., d5] = message.d;
        let size = size(desk, turnout);
        match self.clearances[place(size)].get_mut(usize::from(d5)) {
            Some(count) => *count += 1,
            None => self.no_field[usize::from(size != 0)] += 1,
        }
        if code(d5) == unfit && codes.iter().any(|&other| other != unfit) {
            let fault = match (size, declaration) {
                (0, _) => 4,
                (2, 1 | 2) => 0,
                (_, 1 | 2) => 1,
                (2, _) => 2,
                _ => 3,
            };
            self.unfit[fault] += 1;
        }
    }

    /// The desk that a list left.
    pub fn left(&mut self, desk: &Desk) {
        for zone in 0..desk.station().zones {
            let Some(held) = desk.zone(zone) else {
                continue;
            };
            if let Movement::Standing(train) = held.movement {
                let clear = held.standing(train.id).is_ok_and(|standing| standing.regime == Regime::Clear);
                let worked = train.route.named() & held.work.agreed_turnouts();
                self.clear[0] += u64::from(clear && any_of(desk, worked, |size| size == 2));
                self.clear[1] += u64::from(clear && any_of(desk, worked, |size| size > 2));
            }
        }
    }

    pub fn counts(&self) -> Vec<(String, u64)> {
        let mut counts = Vec::new();
        for (size, by_d5) in SIZES.iter().zip(self.clearances) {
            let named = |d5: usize| format!("clearance on a turnout {size}, d5 {d5}");
            counts.extend(by_d5.into_iter().enumerate().map(|(d5, count)| (named(d5), count)));
        }
        let no_field = ["alone", "of a group"].into_iter().zip(self.no_field);
        counts.extend(no_field.map(|(of, count)| (format!("clearance on a turnout {of}, d5 2"), count)));
        counts.push(("20 for d5 alone".to_string(), self.unfit.iter().sum()));
        counts.extend(UNFIT.iter().zip(self.unfit).map(|(fault, count)| (format!("20 for d5 alone, {fault}"), count)));
        counts.push(("13 for d5 1 alone in another kind".to_string(), self.other_kinds));
        counts.extend(CLEAR.iter().zip(self.clear).map(|(name, count)| (name.to_string(), count)));
        counts
    }
}

/// Is a turnout of the set in a group of such a size?
fn any_of(desk: &Desk, set: Set, fits: fn(usize) -> bool) -> bool {
    members(set).any(|turnout| fits(size(desk, turnout)))
}
