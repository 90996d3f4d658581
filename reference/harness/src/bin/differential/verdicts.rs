//! Comparisons of verdicts for works on signals.

use crate::compare::{Comparison, Files};
use crate::Difference;
use harness::library;
use reference::replay;

impl Comparison {
    /// All 1,152 verdicts, and numbers out of range on each side.
    pub fn all_verdicts(&mut self) -> Result<(), Difference> {
        for line in (0..=4).chain([255]) {
            for signal in (0..=6).chain([255]) {
                for flags in (0..=65).chain([127, 128, 255]) {
                    self.verdict(line, signal, flags)?;
                }
            }
        }
        Ok(())
    }

    pub fn verdict(&mut self, line: u8, signal: u8, flags: u8) -> Result<(), Difference> {
        let reference = replay::verdict_numbers(line, signal, flags);
        self.tally.verdict(reference);
        let packed = u32::from(reference[0]) + 256 * u32::from(reference[1]);
        let files = Files { sheet: &[], journal: &[] };
        files.same(|| format!("desk_verdict({line}, {signal}, {flags})"), library::verdict(line, signal, flags), packed)
    }
}
