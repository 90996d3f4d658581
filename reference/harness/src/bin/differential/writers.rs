//! Comparisons of the writer, on stations as they stand (WRITE-1, WRITE-2, WRITE-3, WRITE-4), and of sheets
//! copied from one buffer into another (WRITE-5).

use crate::compare::{Comparison, Files};
use crate::{raw_stations, Difference};
use harness::{library, trial};
use reference::refusal::{number, Refusal};
use reference::sheet;
use reference::writer::{self, RawStation};

/// Good stations in each round; with each of them so many stations are written that are good, damaged and odd. That is
/// about one input in nine.
const STATIONS: usize = 3;
const GOOD: usize = 3;
const DAMAGED: usize = 6;
const ODD: usize = 2;

/// Percent of these stations on which a set is tried that may split a group.
const SPLITS: u32 = 25;

impl Comparison {
    /// Stations of all sorts written.
    pub fn stations(&mut self) -> Result<(), Difference> {
        for _ in 0..STATIONS {
            let good = raw_stations::good(&mut self.rng);
            for _ in 0..GOOD {
                let station = raw_stations::still_good(&mut self.rng, &good);
                self.good_station(&station)?;
            }
            for _ in 0..DAMAGED {
                let station = raw_stations::damaged(&mut self.rng, &good);
                self.station(&station)?;
            }
            for _ in 0..ODD {
                let station = raw_stations::odd(&mut self.rng);
                self.station(&station)?;
            }
        }
        Ok(())
    }

    /// A station that a sheet describes is never 7.
    fn good_station(&mut self, station: &RawStation) -> Result<(), Difference> {
        let code = self.station(station)?;
        let values = trial::values(station);
        let files = Files { sheet: &values, journal: &[] };
        files.same(|| "trial_write_sheet(good values)".into(), code == Refusal::NoSheet.number(), false)
    }

    /// A station written: the code and the whole buffer. Returns the code.
    fn station(&mut self, station: &RawStation) -> Result<u8, Difference> {
        let values = trial::values(station);
        let before = self.buffer(station.sheet_length());
        let (mut by_library, mut by_reference) = (before.clone(), before.clone());
        if self.rng.chance(SPLITS) {
            self.some_split(station)?;
        }
        let code = number(&writer::write(station, &mut by_reference));
        let library = library::write_sheet(&values, &mut by_library);
        self.tally.written(code);
        let files = Files { sheet: &values, journal: &[] };
        let call = || format!("trial_write_sheet(values in the file sheet, {} bytes)", before.len());
        files.same(call, (library, &by_library), (code, &by_reference))?;
        if code != 0 {
            files.same(call, &by_library, &before)?;
            return Ok(code);
        }
        let (written, rest) = by_library.split_at(station.sheet_length());
        let read = sheet::read(written).map(|read| RawStation::from(&read));
        let yields = || format!("{}: reading them yields that station", call());
        files.same(yields, (library::sheet(written), read.as_ref() == Ok(station)), (0, true))?;
        files.same(|| format!("{}: bytes past the sheet", call()), rest, &before[written.len()..])?;
        Ok(code)
    }

    /// A good sheet copied into a buffer of its length, a shorter one and a longer one.
    pub fn good_copies(&mut self, sheet: &[u8]) -> Result<(), Difference> {
        let more = self.rng.within(1..=40) as usize;
        for length in [sheet.len(), sheet.len() - 1, sheet.len() + more] {
            let before = self.rng.bytes(length);
            let code = self.copied(sheet, before)?;
            let files = Files { sheet, journal: &[] };
            let expected = if length < sheet.len() { Refusal::ShortBuffer.number() } else { 0 };
            files.same(|| format!("desk_copy_sheet(good sheet, {length} bytes)"), code, expected)?;
        }
        Ok(())
    }

    /// A sheet, good or not, copied into some buffer.
    pub fn copy(&mut self, sheet: &[u8]) -> Result<(), Difference> {
        let before = self.buffer(sheet.len());
        self.copied(sheet, before).map(|_| ())
    }

    /// A sheet copied: code, index and the whole buffer, which then has the sheet's bytes, in version 2, or what it
    /// had. Returns the code.
    fn copied(&mut self, sheet: &[u8], before: Vec<u8>) -> Result<u8, Difference> {
        let (mut by_library, mut by_reference) = (before.clone(), before.clone());
        let [code, index] = writer::copy_sheet(sheet, &mut by_reference);
        let library = library::copy_sheet(sheet, &mut by_library);
        self.tally.copied(sheet, code);
        let files = Files { sheet, journal: &[] };
        let call = || format!("desk_copy_sheet(sheet, {} bytes)", before.len());
        let packed = u32::from(code) + 256 * u32::from(index);
        files.same(call, (library, &by_library), (packed, &by_reference))?;
        let expected = match code {
            0 => [&in_version_2(sheet), &before[sheet.len()..]].concat(),
            _ => before.clone(),
        };
        files.same(|| format!("{}: the sheet of version 2, the rest untouched", call()), &by_library, &expected)?;
        if code == 0 {
            let read = sheet::read(&by_library[..sheet.len()]);
            files.same(|| format!("{}: reading them yields that station", call()), read, sheet::read(sheet))?;
        }
        Ok(code)
    }

    /// A lent buffer near the length needed, with random bytes in it.
    fn buffer(&mut self, needed: usize) -> Vec<u8> {
        let length = match self.rng.within(0..=9) {
            0..=3 => needed,
            4..=5 => needed.saturating_sub(1),
            6 => needed + 1,
            7 => needed + self.rng.index(64),
            8 => 0,
            _ => self.rng.index(needed + 1),
        };
        self.rng.bytes(length)
    }
}

/// SHEET-14, WRITE-5: the bytes of an accepted sheet, of version 2 as they are; of version 1 with the other version,
/// and at both ends of each crossover, in the order of lower ends, its number in place of the partner.
fn in_version_2(sheet: &[u8]) -> Vec<u8> {
    let mut bytes = sheet.to_vec();
    if sheet[4] == 2 {
        return bytes;
    }
    bytes[4] = 2;
    let mut crossovers = 0;
    for n in 0..sheet[5] {
        let [own, other] = [n, sheet[9 + 3 * usize::from(n)]].map(|turnout| 9 + 3 * usize::from(turnout));
        if sheet[own] != 255 && own < other {
            bytes[own] = crossovers;
            bytes[other] = crossovers;
            crossovers += 1;
        }
    }
    bytes
}
