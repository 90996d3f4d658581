//! Messages of a list whose set holds whole groups: a part of one left out at times, mostly of that of turnout 63, the
//! last of 64, and counts of what occurred. KIND-1.2, KIND-10.2.

use crate::group_stations::LAST;
use crate::rng::Rng;
use reference::desk::Desk;
use reference::message::{self, Message, RECORD};
use reference::refusal::{number, Refusal};
use reference::set::{holds, only, Set};
use reference::station::Station;

/// The message; if it is of kind 1 or 10 and its set holds a whole group, at times without a part of it.
pub fn perhaps_split(message: Message, rng: &mut Rng, station: &Station) -> Message {
    let [percent, percent_of_last] = match message.kind {
        1 => [12, 25],
        10 => [30, 50],
        _ => return message,
    };
    let groups = station.groups();
    let last = Some(groups.of_turnout(LAST)).filter(|&group| group != 0 && group & !message.a == 0);
    let whole: Vec<Set> = groups.iter().map(|(_, group)| group).filter(|group| group & !message.a == 0).collect();
    let group = match last {
        Some(group) if rng.chance(percent_of_last) => group,
        _ if !whole.is_empty() && rng.chance(percent) => rng.pick(&whole),
        _ => return message,
    };
    let kept = only(rng.member(group));
    let left_out = match rng.within(0..=2) {
        0 => only(rng.member(group)),
        1 => group & !kept,
        _ => rng.part(group & !kept, 50),
    };
    Message { a: message.a & !left_out, ..message }
}

const KINDS: [&str; 2] = ["kind 1", "kind 10"];
const SIZES: [&str; 3] = ["two", "3 to 7", "8"];

/// Of messages heard, kind 1 and kind 10.
#[derive(Default)]
pub struct Parts {
    /// 17 for a part of one group alone, by the group's size.
    split: [[u64; 3]; 2],
    /// Accepted with a whole group, by its size.
    whole: [[u64; 3]; 2],
    /// 17 for a part of the group of turnout 63 alone; accepted with that group.
    last: [[u64; 2]; 2],
}

impl Parts {
    /// A record, and the desk that is to hear it.
    pub fn heard(&mut self, desk: &Desk, record: &[u8; RECORD]) {
        let Ok(message) = message::read(record) else {
            return;
        };
        let kind = match message.kind {
            1 => 0,
            10 => 1,
            _ => return,
        };
        let groups = desk.station().groups();
        let split: Vec<Set> = groups.split_by(message.a).map(|(_, group)| group).collect();
        let code = number(&desk.clone().hear(&message));
        match split[..] {
            [] if code == 0 => {
                for (_, group) in groups.iter().filter(|&(_, group)| group & !message.a == 0) {
                    self.whole[kind][size(group)] += 1;
                    self.last[kind][1] += u64::from(holds(group, LAST));
                }
            }
            [group] if is_place(code) && !is_place(without_groups(desk, &message)) => {
                self.split[kind][size(group)] += 1;
                self.last[kind][0] += u64::from(holds(group, LAST));
            }
            _ => {}
        }
    }

    pub fn counts(&self) -> Vec<(String, u64)> {
        let mut counts = Vec::new();
        for (n, kind) in KINDS.iter().enumerate() {
            for (size, count) in SIZES.iter().zip(self.split[n]) {
                counts.push((format!("{kind}, 17 for a part of a group of {size} alone"), count));
            }
            for (size, count) in SIZES.iter().zip(self.whole[n]) {
                counts.push((format!("{kind}, accepted with a whole group of {size}"), count));
            }
            let [split, whole] = self.last[n];
            counts.push((format!("{kind}, 17 for a part of the group of turnout 63 alone"), split));
            counts.push((format!("{kind}, accepted with the group of turnout 63"), whole));
        }
        counts
    }
}

fn size(group: Set) -> usize {
    match group.count_ones() {
        2 => 0,
        3..=7 => 1,
        _ => 2,
    }
}

fn is_place(code: u8) -> bool {
    code == Refusal::Place.number()
}

/// The code that the message would get if every turnout were alone.
fn without_groups(desk: &Desk, message: &Message) -> u8 {
    let mut station = desk.station().clone();
    for turnout in &mut station.turnouts {
        turnout.group = None;
    }
    let heard = Desk::with(&station, *desk.zones()).hear(message);
    number(&heard)
}
