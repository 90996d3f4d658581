//! Sheets and journals in the making, for whoever puts one together record by record: a text that is turned into bytes,
//! a test. Any numbers go in; whether the bytes read is for `sheet` and `journal` to say.

use crate::group::ALONE;
use crate::journal;
use crate::message::RECORD;
use crate::set::{self, Set};

/// A sheet in the making: any bytes in the records, counts as many as there are records.
#[derive(Clone, Debug)]
pub struct Sheet {
    pub version: u16,
    pub zones: u8,
    /// Zone; partner in version 1, the group's number in version 2; drive. 255 is alone in both.
    pub turnouts: Vec<[u8; 3]>,
    /// Zone, and the sets run over, flank, exit zone, reverse.
    pub routes: Vec<(u8, [Set; 4])>,
}

impl Sheet {
    /// Of version 1.
    pub fn new(zones: u8) -> Sheet {
        Sheet { version: 1, zones, turnouts: Vec::new(), routes: Vec::new() }
    }

    pub fn of_version_2(zones: u8) -> Sheet {
        Sheet { version: 2, ..Sheet::new(zones) }
    }

    /// One turnout alone, of either version.
    pub fn turnout(mut self, zone: u8, drive: u8) -> Sheet {
        self.turnouts.push([zone, ALONE, drive]);
        self
    }

    /// Version 1: two turnouts, the ends of a crossover.
    pub fn crossover(mut self, zone: u8, drive: u8) -> Sheet {
        let first = self.turnouts.len() as u8;
        self.turnouts.push([zone, first + 1, drive]);
        self.turnouts.push([zone, first, drive]);
        self
    }

    /// Version 2: so many turnouts, a group with the number after the highest so far.
    pub fn group(mut self, zone: u8, drive: u8, turnouts: usize) -> Sheet {
        let numbers = self.turnouts.iter().map(|&[_, number, _]| number).filter(|&number| number != ALONE);
        let next = numbers.max().map_or(0, |highest| highest + 1);
        self.turnouts.extend(vec![[zone, next, drive]; turnouts]);
        self
    }

    /// Version 2: a turnout for each of these numbers.
    pub fn carriers(mut self, zone: u8, drive: u8, numbers: &[u8]) -> Sheet {
        self.turnouts.extend(numbers.iter().map(|&number| [zone, number, drive]));
        self
    }

    pub fn route(mut self, zone: u8, run_over: &[u8], flank: &[u8], exit_zone: &[u8], reverse: &[u8]) -> Sheet {
        self.routes.push((zone, [run_over, flank, exit_zone, reverse].map(set::of)));
        self
    }

    pub fn bytes(&self) -> Vec<u8> {
        let mut bytes = b"SPT".to_vec();
        bytes.extend(self.version.to_be_bytes());
        bytes.extend([self.turnouts.len() as u8, self.routes.len() as u8, self.zones]);
        bytes.extend(self.turnouts.iter().flatten());
        for (zone, sets) in &self.routes {
            bytes.push(*zone);
            bytes.extend(sets.iter().flat_map(|set| set.to_be_bytes()));
        }
        bytes
    }
}

/// The header of a journal with any count.
pub fn journal_header(count: u32) -> [u8; journal::HEADER] {
    let mut header = [0; journal::HEADER];
    header[..5].copy_from_slice(b"WKJ\x00\x01");
    header[5..9].copy_from_slice(&count.to_be_bytes());
    header
}

/// A journal of any records of 32 bytes, also such as do not read.
pub fn journal_of(records: &[[u8; RECORD]]) -> Vec<u8> {
    let mut journal = journal_header(records.len() as u32).to_vec();
    journal.extend(records.iter().flatten());
    journal
}
