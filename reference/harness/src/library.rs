//! The C interface of the proved library, and safe calls over it. `trial_write_sheet` and `trial_splits` are of no
//! shipped archive: they are there for the comparison, since no other call takes a station that no sheet gave.
//! The only file with unsafe code.

#![allow(unsafe_code)]

use crate::trial::VALUES;
use reference::message::Message;
use reference::set::Set;

mod c {
    extern "C" {
        pub fn desk_sheet(sheet: *const u8, len: usize) -> u32;
        pub fn panel_sheet(sheet: *const u8, len: usize) -> u32;
        pub fn desk_copy_sheet(sheet: *const u8, sheet_len: usize, buffer: *mut u8, len: usize) -> u32;
        pub fn trial_write_sheet(values: *const u8, values_len: usize, buffer: *mut u8, len: usize) -> u8;
        pub fn trial_splits(values: *const u8, values_len: usize, set: u64) -> u8;
        pub fn desk_record(record: *const u8, len: usize) -> u8;
        pub fn desk_write_record(
            kind: u8,
            zone: u8,
            time: u32,
            id: u32,
            a: u64,
            b: u64,
            d0: u8,
            d1: u8,
            d2: u8,
            d3: u8,
            d4: u8,
            d5: u8,
            buffer: *mut u8,
            len: usize,
        ) -> u8;
        pub fn desk_replay(
            sheet: *const u8,
            sheet_len: usize,
            journal: *const u8,
            journal_len: usize,
            answers: *mut u8,
            answers_len: usize,
        ) -> u8;
        pub fn desk_movement(
            sheet: *const u8,
            sheet_len: usize,
            journal: *const u8,
            journal_len: usize,
            zone: u8,
            train: u32,
        ) -> u64;
        pub fn desk_work(
            sheet: *const u8,
            sheet_len: usize,
            journal: *const u8,
            journal_len: usize,
            turnout: u8,
        ) -> u32;
        pub fn desk_journal_check(journal: *const u8, len: usize) -> u8;
        pub fn desk_journal_count(journal: *const u8, len: usize) -> u32;
        pub fn desk_journal_record(journal: *const u8, len: usize, n: u32) -> u64;
        pub fn desk_journal_add(journal: *mut u8, len: usize, record: *const u8, record_len: usize) -> u8;
        pub fn desk_verdict(line: u8, signal: u8, flags: u8) -> u32;
        pub fn unit_fresh(desk: *mut u8, len: usize) -> u8;
        pub fn unit_apply(
            sheet: *const u8,
            sheet_len: usize,
            desk: *mut u8,
            desk_len: usize,
            record: *const u8,
            record_len: usize,
        ) -> u64;
        pub fn unit_movement(
            sheet: *const u8,
            sheet_len: usize,
            desk: *const u8,
            desk_len: usize,
            zone: u8,
            train: u32,
        ) -> u64;
        pub fn unit_work(sheet: *const u8, sheet_len: usize, desk: *const u8, desk_len: usize, turnout: u8) -> u32;
    }
}

// Safety, of every call below: pointer and length are those of one slice, alive and lent for the call;
// the library is total and keeps no pointer.

/// Code + 256 x index of the bad record.
pub fn sheet(sheet: &[u8]) -> u32 {
    unsafe { c::desk_sheet(sheet.as_ptr(), sheet.len()) }
}

/// The cabin panel's reading, packed as by `sheet`.
pub fn panel_sheet(sheet: &[u8]) -> u32 {
    unsafe { c::panel_sheet(sheet.as_ptr(), sheet.len()) }
}

/// Packed as by `sheet`.
pub fn copy_sheet(sheet: &[u8], buffer: &mut [u8]) -> u32 {
    unsafe { c::desk_copy_sheet(sheet.as_ptr(), sheet.len(), buffer.as_mut_ptr(), buffer.len()) }
}

/// The writer, on a station by its values (`trial`): 0, 7 or 8.
pub fn write_sheet(values: &[u8; VALUES], buffer: &mut [u8]) -> u8 {
    unsafe { c::trial_write_sheet(values.as_ptr(), values.len(), buffer.as_mut_ptr(), buffer.len()) }
}

/// 1 where the set splits a group of a station by its values (`trial`), else 0.
pub fn splits(values: &[u8; VALUES], set: Set) -> u8 {
    unsafe { c::trial_splits(values.as_ptr(), values.len(), set) }
}

pub fn record(record: &[u8]) -> u8 {
    unsafe { c::desk_record(record.as_ptr(), record.len()) }
}

pub fn write_record(message: &Message, buffer: &mut [u8]) -> u8 {
    let Message { kind, zone, time, id, a, b, d: [d0, d1, d2, d3, d4, d5] } = *message;
    unsafe {
        c::desk_write_record(kind, zone, time, id, a, b, d0, d1, d2, d3, d4, d5, buffer.as_mut_ptr(), buffer.len())
    }
}

pub fn replay(sheet: &[u8], journal: &[u8], answers: &mut [u8]) -> u8 {
    unsafe {
        c::desk_replay(
            sheet.as_ptr(),
            sheet.len(),
            journal.as_ptr(),
            journal.len(),
            answers.as_mut_ptr(),
            answers.len(),
        )
    }
}

/// Code + 2^8 x regime + 2^16 x lowest + 2^24 x count.
pub fn movement(sheet: &[u8], journal: &[u8], zone: u8, train: u32) -> u64 {
    unsafe { c::desk_movement(sheet.as_ptr(), sheet.len(), journal.as_ptr(), journal.len(), zone, train) }
}

/// Code + 256 x (1 yes, 0 no).
pub fn work(sheet: &[u8], journal: &[u8], turnout: u8) -> u32 {
    unsafe { c::desk_work(sheet.as_ptr(), sheet.len(), journal.as_ptr(), journal.len(), turnout) }
}

pub fn journal_check(journal: &[u8]) -> u8 {
    unsafe { c::desk_journal_check(journal.as_ptr(), journal.len()) }
}

pub fn journal_count(journal: &[u8]) -> u32 {
    unsafe { c::desk_journal_count(journal.as_ptr(), journal.len()) }
}

/// Code + 256 x the place where record n starts.
pub fn journal_record(journal: &[u8], n: u32) -> u64 {
    unsafe { c::desk_journal_record(journal.as_ptr(), journal.len(), n) }
}

pub fn journal_add(journal: &mut [u8], record: &[u8]) -> u8 {
    unsafe { c::desk_journal_add(journal.as_mut_ptr(), journal.len(), record.as_ptr(), record.len()) }
}

/// Code + 256 x verdict.
pub fn verdict(line: u8, signal: u8, flags: u8) -> u32 {
    unsafe { c::desk_verdict(line, signal, flags) }
}

pub fn unit_fresh(desk: &mut [u8]) -> u8 {
    unsafe { c::unit_fresh(desk.as_mut_ptr(), desk.len()) }
}

/// The code in the lowest byte, the minutes above it.
pub fn unit_apply(sheet: &[u8], desk: &mut [u8], record: &[u8]) -> u64 {
    unsafe { c::unit_apply(sheet.as_ptr(), sheet.len(), desk.as_mut_ptr(), desk.len(), record.as_ptr(), record.len()) }
}

/// Packed as by `movement`.
pub fn unit_movement(sheet: &[u8], desk: &[u8], zone: u8, train: u32) -> u64 {
    unsafe { c::unit_movement(sheet.as_ptr(), sheet.len(), desk.as_ptr(), desk.len(), zone, train) }
}

/// Packed as by `work`.
pub fn unit_work(sheet: &[u8], desk: &[u8], turnout: u8) -> u32 {
    unsafe { c::unit_work(sheet.as_ptr(), sheet.len(), desk.as_ptr(), desk.len(), turnout) }
}
