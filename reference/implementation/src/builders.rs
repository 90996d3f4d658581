//! Stations, messages and journals for tests, stored cases and random inputs; station K among them.

use crate::drafts::{journal_of, Sheet};
use crate::group::ALONE;
use crate::message::Message;
use crate::set;
use crate::sheet::{ELECTRIC, HAND};

/// K-1: "0 and 1 an electric crossover, 2 alone by hand; route 0 runs over {0}, flank {2}, reverse empty".
pub fn station_k() -> Sheet {
    Sheet::new(1).crossover(0, ELECTRIC).turnout(0, HAND).route(0, &[0], &[2], &[], &[])
}

/// K-1: "A sheet of version 2, in which 0 and 1 are group 0, gives the same station".
pub fn station_k_in_version_2() -> Sheet {
    Sheet::of_version_2(1).group(0, ELECTRIC, 2).turnout(0, HAND).route(0, &[0], &[2], &[], &[])
}

/// Version 2: three by hand tied by keys (0, 1, 2), an electric crossover (3, 4), eight by hand (5 to 12), 13 alone.
/// Route 0 runs over 0 and 3 to 6, flank none, exit zone 1 and 13, reverse 1 and 6. Route 1 runs over 13 and has the
/// groups of three and of two in its flank, turnouts 0 and 5 reverse; 5 is in its exit zone.
pub fn group_station() -> Sheet {
    let sheet = Sheet::of_version_2(1).group(0, HAND, 3).group(0, ELECTRIC, 2).group(0, HAND, 8).turnout(0, ELECTRIC);
    sheet.route(0, &[0, 3, 4, 5, 6], &[], &[1, 13], &[1, 6]).route(0, &[13], &[0, 1, 2, 3, 4], &[5], &[0, 5])
}

/// Electric crossovers 0-1 and 2-3, 4 by hand, 5 electric. Route 0 runs over 0 and 5, flank 2 and 3, exit zone 4; 1 is
/// not named.
pub fn exit_zone_station() -> Sheet {
    Sheet::new(1).crossover(0, ELECTRIC).crossover(0, ELECTRIC).turnout(0, HAND).turnout(0, ELECTRIC).route(
        0,
        &[0, 5],
        &[2, 3],
        &[4],
        &[],
    )
}

/// 64 turnouts, 64 routes, 8 zones. Zone z has turnouts 8z to 8z + 7: two crossovers (the first electric, the second
/// by hand), then four alone. Each zone has eight routes.
pub fn largest_station() -> Sheet {
    largest(Sheet::new(8), Sheet::crossover)
}

/// The same station by a sheet of version 2: the crossovers of zone z are groups 2z and 2z + 1.
pub fn largest_station_in_version_2() -> Sheet {
    largest(Sheet::of_version_2(8), |sheet, zone, drive| sheet.group(zone, drive, 2))
}

fn largest(mut sheet: Sheet, crossover: fn(Sheet, u8, u8) -> Sheet) -> Sheet {
    for zone in 0..8 {
        sheet = crossover(crossover(sheet, zone, ELECTRIC), zone, HAND);
        sheet = sheet.turnout(zone, ELECTRIC).turnout(zone, HAND).turnout(zone, ELECTRIC).turnout(zone, HAND);
    }
    for n in 0..64 {
        let (zone, shape) = (n / 8, n % 8);
        let t = |k: u8| 8 * zone + k;
        sheet = match shape {
            0 => sheet.route(zone, &[t(0), t(1), t(4)], &[t(2), t(3)], &[t(5)], &[t(0), t(1)]),
            1 => sheet.route(zone, &[t(0)], &[], &[t(7)], &[t(7)]),
            2 => sheet.route(zone, &[t(5), t(6)], &[t(0), t(1)], &[t(2)], &[t(2), t(5)]),
            3 => sheet.route(zone, &(0..8).map(t).collect::<Vec<_>>(), &[], &[], &[]),
            _ => sheet.route(zone, &[t(shape)], &[t(2), t(3)], &[t(0)], &[]),
        };
    }
    sheet
}

/// So many turnouts, each alone, and so many routes over turnout 0, in one zone: good if the counts are.
pub fn plain_station(turnouts: usize, routes: usize) -> Sheet {
    let (turnouts, routes) = (vec![[0, ALONE, ELECTRIC]; turnouts], vec![(0, [1, 0, 0, 0]); routes]);
    Sheet { turnouts, routes, ..Sheet::new(1) }
}

/// 16 turnouts, 8 routes, 2 zones, the most that the cabin panel takes: the largest station's zones 0 and 1, with four
/// routes of each.
pub fn largest_panel_station() -> Sheet {
    let all = largest_station();
    let routes = [&all.routes[..4], &all.routes[8..12]].concat();
    Sheet { turnouts: all.turnouts[..16].to_vec(), routes, ..Sheet::new(2) }
}

/// K-2: the eleven records, all zone 0.
pub fn journal_k() -> Vec<Message> {
    vec![
        work_asked(7, 1, &[0, 1]),
        agreed(7).at(90),
        detection_off(7, &[0, 1], &[]).at(100),
        movement_asked(512, 0).at(110),
        ordered(512, 1).at(111),
        cleared(512, [0, 3, 0, 0, 1]).at(115),
        ordered(512, 1).at(116),
        ordered(512, 2).at(117),
        all_restored(7).at(118),
        passed(512).at(130),
        all_restored(7).at(209),
    ]
}

/// A message of a kind and id; zone 0, time 0, all else 0.
pub fn message(kind: u8, id: u32) -> Message {
    Message { kind, zone: 0, time: 0, id, a: 0, b: 0, d: [0; 6] }
}

impl Message {
    pub fn at(self, time: u32) -> Message {
        Message { time, ..self }
    }

    pub fn in_zone(self, zone: u8) -> Message {
        Message { zone, ..self }
    }

    pub fn a(self, turnouts: &[u8]) -> Message {
        Message { a: set::of(turnouts), ..self }
    }

    pub fn b(self, turnouts: &[u8]) -> Message {
        Message { b: set::of(turnouts), ..self }
    }

    /// A clearance that covers the whole group. FIT-4.
    pub fn whole_group(self) -> Message {
        self.d(5, 1)
    }

    /// Detail `n` replaced.
    pub fn d(mut self, n: usize, value: u8) -> Message {
        self.d[n] = value;
        self
    }
}

pub fn work_asked(id: u32, form: u8, a: &[u8]) -> Message {
    message(1, id).a(a).d(0, form)
}

pub fn agreed(id: u32) -> Message {
    message(2, id)
}

pub fn withdrawn(id: u32) -> Message {
    message(3, id)
}

pub fn detection_off(id: u32, lost: &[u8], portable: &[u8]) -> Message {
    message(4, id).a(lost).b(portable)
}

pub fn movement_asked(train: u32, route: u8) -> Message {
    message(5, train).d(0, route)
}

/// Turnout, declaration, position, clamp, channel; d5 is 0.
pub fn cleared(train: u32, [turnout, declaration, position, clamp, channel]: [u8; 5]) -> Message {
    Message { d: [turnout, declaration, position, clamp, channel, 0], ..message(6, train) }
}

pub fn ordered(train: u32, aspect: u8) -> Message {
    message(7, train).d(0, aspect)
}

pub fn passed(train: u32) -> Message {
    message(8, train)
}

pub fn cancelled(train: u32) -> Message {
    message(9, train)
}

pub fn part_restored(id: u32, a: &[u8]) -> Message {
    message(10, id).a(a)
}

pub fn all_restored(id: u32) -> Message {
    message(11, id)
}

pub fn recorder(working: u8) -> Message {
    message(12, 0).d(0, working)
}

/// 1 Tcl, 2 Es.
pub fn key_used(train: u32, turnout: u8, key: u8) -> Message {
    message(13, train).d(0, turnout).d(1, key)
}

pub fn journal(messages: &[Message]) -> Vec<u8> {
    journal_of(&messages.iter().map(Message::to_bytes).collect::<Vec<_>>())
}
