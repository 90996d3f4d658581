//! A unit: a desk kept in 520 bytes, heard one record at a time. Bytes are a desk's where each field keeps its rule;
//! they are read field by field, and not by writing the desk again.
//!
//! The head, 8 bytes: version 1, zeros. Then 8 zones of 64 bytes: work (26), movement (23), recorder (1), last time
//! (4), the movement's keys (8), zeros (2). What a zone has not is 0.

use crate::desk::{Desk, ZONES};
use crate::message::Form;
use crate::movement::{Movement, Train};
use crate::replay::{movement_numbers, refused_movement, work_numbers};
use crate::set::Set;
use crate::sheet;
use crate::station::{Route, Station};
use crate::work::{Work, Works};
use crate::zone::Zone;

pub const DESK: usize = 520;
/// Bytes that are no desk's.
pub const NOT_A_DESK: u8 = 61;

const VERSION: u8 = 1;
const HEAD: usize = 8;
const ZONE: usize = 64;
const MOVEMENT_AT: usize = 26;
const LAST_AT: usize = 49;
const KEYS_AT: usize = 54;
const RESERVED_AT: usize = 62;

/// VALUE-3: "a stored route not below R names nothing".
static NO_ROUTE: Route = Route { zone: 0, run_over: 0, flank: 0, exit_zone: 0, reverse: 0 };
static NO_STATION: Station = Station { zones: 0, turnouts: Vec::new(), routes: Vec::new() };

pub fn encode(desk: &Desk) -> [u8; DESK] {
    let mut bytes = [0; DESK];
    bytes[0] = VERSION;
    for (part, zone) in bytes[HEAD..].chunks_exact_mut(ZONE).zip(desk.zones()) {
        put_work(part, &zone.work);
        put_movement(part, &zone.movement);
        part[LAST_AT] = u8::from(zone.recorder_working);
        part[LAST_AT + 1..LAST_AT + 5].copy_from_slice(&zone.last.to_be_bytes());
    }
    bytes
}

/// Stage, manner, form (4 bytes), turnouts (8), time of the agreement (4), turnouts open to work (8).
fn put_work(part: &mut [u8], work: &Work) {
    match work {
        Work::None => {}
        Work::Asked(works) => put_works(part, 1, works),
        Work::Agreed { works, since, open } => {
            put_works(part, 2, works);
            part[14..18].copy_from_slice(&since.to_be_bytes());
            part[18..26].copy_from_slice(&open.to_be_bytes());
        }
    }
}

fn put_works(part: &mut [u8], stage: u8, works: &Works) {
    part[0] = stage;
    part[1] = works.form.number();
    part[2..6].copy_from_slice(&works.id.to_be_bytes());
    part[6..14].copy_from_slice(&works.turnouts.to_be_bytes());
}

/// 1, route, order, train (4 bytes), turnouts cleared (8), those of them that are efficient (8); apart from them, the
/// turnouts with a key (8).
fn put_movement(zone: &mut [u8], movement: &Movement) {
    if let Movement::Standing(train) = movement {
        zone[KEYS_AT..RESERVED_AT].copy_from_slice(&train.keys.to_be_bytes());
        let part = &mut zone[MOVEMENT_AT..];
        part[0] = 1;
        part[1] = train.number;
        part[2] = train.order;
        part[3..7].copy_from_slice(&train.id.to_be_bytes());
        part[7..15].copy_from_slice(&train.cleared.to_be_bytes());
        part[15..23].copy_from_slice(&train.efficient.to_be_bytes());
    }
}

/// The desk whose bytes these are, if they are a desk's.
pub fn decode<'s>(station: &'s Station, bytes: &[u8]) -> Option<Desk<'s>> {
    let bytes: &[u8; DESK] = bytes.try_into().ok()?;
    let (head, zones) = bytes.split_at(HEAD);
    if head[0] != VERSION || !is_zero(&head[1..]) {
        return None;
    }
    let mut held = [Zone::fresh(); ZONES];
    for (zone, part) in held.iter_mut().zip(zones.chunks_exact(ZONE)) {
        *zone = zone_in(station, part)?;
    }
    Some(Desk::with(station, held))
}

fn zone_in<'s>(station: &'s Station, part: &[u8]) -> Option<Zone<'s>> {
    let work = work_in(&part[..MOVEMENT_AT])?;
    let movement = movement_in(station, &part[MOVEMENT_AT..LAST_AT], set(part, KEYS_AT))?;
    let recorder_working = match part[LAST_AT] {
        0 => false,
        1 => true,
        _ => return None,
    };
    let last = word(part, LAST_AT + 1);
    is_zero(&part[RESERVED_AT..]).then_some(Zone { work, movement, recorder_working, last })
}

fn work_in(part: &[u8]) -> Option<Work> {
    let works = || Works { id: word(part, 2), form: Form::of(part[1]), turnouts: set(part, 6) };
    match part[0] {
        0 if is_zero(&part[1..]) => Some(Work::None),
        1 if is_zero(&part[14..]) => Some(Work::Asked(works())),
        2 => Some(Work::Agreed { works: works(), since: word(part, 14), open: set(part, 18) }),
        _ => None,
    }
}

fn movement_in<'s>(station: &'s Station, part: &[u8], keys: Set) -> Option<Movement<'s>> {
    match part[0] {
        0 if is_zero(&part[1..]) && keys == 0 => Some(Movement::None),
        1 => Some(Movement::Standing(Train {
            id: word(part, 3),
            number: part[1],
            route: station.routes.get(usize::from(part[1])).unwrap_or(&NO_ROUTE),
            order: part[2],
            cleared: set(part, 7),
            efficient: set(part, 15),
            keys,
        })),
        _ => None,
    }
}

fn is_zero(bytes: &[u8]) -> bool {
    bytes.iter().all(|&byte| byte == 0)
}

fn word(bytes: &[u8], at: usize) -> u32 {
    bytes[at..at + 4].iter().fold(0, |word, &byte| word << 8 | u32::from(byte))
}

fn set(bytes: &[u8], at: usize) -> Set {
    bytes[at..at + 8].iter().fold(0, |set, &byte| set << 8 | u64::from(byte))
}

/// Stores the fresh desk: 0, or 61 for another length.
pub fn fresh(bytes: &mut [u8]) -> u8 {
    let Ok(bytes) = <&mut [u8; DESK]>::try_from(bytes) else {
        return NOT_A_DESK;
    };
    *bytes = encode(&Desk::fresh(&NO_STATION));
    0
}

/// Hears a record: the sheet's number, 61, or the desk's answer; the minutes. A refusal leaves the bytes and has no
/// minutes.
pub fn apply(sheet: &[u8], bytes: &mut [u8], record: &[u8]) -> (u8, u32) {
    match sheet::read(sheet) {
        Ok(station) => apply_at(&station, bytes, record),
        Err(fault) => (fault.number(), 0),
    }
}

/// The same, of a station that was read before.
pub fn apply_at(station: &Station, bytes: &mut [u8], record: &[u8]) -> (u8, u32) {
    let Some(mut desk) = decode(station, bytes) else {
        return (NOT_A_DESK, 0);
    };
    match desk.hear_record(record) {
        Ok(minutes) => {
            bytes.copy_from_slice(&encode(&desk));
            (0, minutes)
        }
        Err(refusal) => (refusal.number(), 0),
    }
}

/// The movement question of the desk in the bytes.
pub fn movement_at(station: &Station, bytes: &[u8], zone: u8, train: u32) -> [u8; 4] {
    match decode(station, bytes) {
        Some(desk) => movement_numbers(&desk.movement_question(zone, train)),
        None => refused_movement(NOT_A_DESK),
    }
}

/// The work question of the desk in the bytes.
pub fn work_at(station: &Station, bytes: &[u8], turnout: u8) -> [u8; 2] {
    match decode(station, bytes) {
        Some(desk) => work_numbers(&desk.work_question(turnout)),
        None => [NOT_A_DESK, 0],
    }
}

#[cfg(test)]
mod tests;
