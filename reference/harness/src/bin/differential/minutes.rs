//! The minutes of kind 11: the sentence of MINUTES-1 on the library's own answers, and counts of what occurred.

use crate::compare::{Comparison, Files};
use crate::Difference;
use reference::station::Station;
use reference::work::Work;
use reference::{message, unit};

impl Comparison {
    /// A record that the library accepted with so many minutes, and the bytes of the desk that heard it.
    pub fn minutes(
        &mut self,
        files: Files,
        station: &Station,
        desk: &[u8],
        record: &[u8],
        minutes: u64,
    ) -> Result<(), Difference> {
        let Some(seconds) = seconds(station, desk, record) else {
            return Ok(());
        };
        self.tally.minutes.restored(seconds);
        let call = || format!("unit_apply: {seconds} seconds as {minutes} minutes, the nearest, a half to the even");
        files.same(call, is_nearest(seconds, minutes), true)
    }
}

/// From the agreement to its kind 11, below 0 where the agreement is later: only damaged bytes have that.
fn seconds(station: &Station, desk: &[u8], record: &[u8]) -> Option<i64> {
    let restored = message::read(record).ok().filter(|message| message.kind == 11)?;
    match unit::decode(station, desk)?.zone(restored.zone)?.work {
        Work::Agreed { since, .. } => Some(i64::from(restored.time) - i64::from(since)),
        _ => None,
    }
}

/// MINUTES-1: "to the nearest whole minute, and an exact half minute goes to the even one"; VALUE-5: "an agreement
/// later than the restoration gives 0 minutes". By the distance alone: nothing is divided.
fn is_nearest(seconds: i64, minutes: u64) -> bool {
    let Ok(seconds) = u64::try_from(seconds) else {
        return minutes == 0;
    };
    match (60 * minutes).abs_diff(seconds) {
        0..=29 => true,
        30 => minutes & 1 == 0,
        _ => false,
    }
}

/// Accepted kind 11 of units, by where the seconds lie between whole minutes.
#[derive(Default)]
pub struct Minutes([u64; 8]);

const SORTS: [&str; 8] = [
    "agreement later than the restoration",
    "whole minutes exactly",
    "under the half",
    "one second under the half",
    "exact half to the even minute below",
    "exact half to the even minute above",
    "one second over the half",
    "over the half",
];

impl Minutes {
    fn restored(&mut self, seconds: i64) {
        let sort = match (seconds % 60, seconds / 60 % 2) {
            _ if seconds < 0 => 0,
            (0, _) => 1,
            (1..=28, _) => 2,
            (29, _) => 3,
            (30, 0) => 4,
            (30, _) => 5,
            (31, _) => 6,
            _ => 7,
        };
        self.0[sort] += 1;
    }

    pub fn counts(&self) -> Vec<(String, u64)> {
        SORTS.iter().zip(self.0).map(|(sort, count)| (format!("minutes, {sort}"), count)).collect()
    }
}
