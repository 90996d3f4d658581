//! Comparisons of records: reading and writing, with buffers of the right length and of others.

use crate::compare::{Comparison, Files};
use crate::Difference;
use harness::library;
use reference::message::{self, Message, RECORD};
use reference::refusal::number;

impl Comparison {
    /// Record check and write.
    pub fn records(&mut self, records: &[[u8; RECORD]]) -> Result<(), Difference> {
        let files = Files { sheet: &[], journal: &[] };
        for record in records {
            if self.rng.chance(40) {
                let longer = [&record[..], &[0; 32]].concat();
                let length = self.rng.weighted(&[(8, 32), (1, 31), (1, 33), (1, 0), (1, 64)]);
                let lent = &longer[..length];
                let reference = number(&message::read(lent));
                self.tally.inputs += 1;
                self.tally.code(reference);
                files.same(|| format!("desk_record({lent:?})"), library::record(lent), reference)?;
            }
            if self.rng.chance(30) {
                let message = Message::from_bytes(record);
                let length = self.rng.weighted(&[(8, 32), (1, 31), (1, 33), (1, 0), (1, 64)]);
                let filled = self.rng.bytes(length);
                let (mut by_library, mut by_reference) = (filled.clone(), filled);
                let reference = number(&message::write(&message, &mut by_reference));
                let library = library::write_record(&message, &mut by_library);
                self.tally.inputs += 1;
                self.tally.code(reference);
                let call = || format!("desk_write_record({message:?}, buffer of {length} bytes)");
                files.same(call, (library, by_library), (reference, by_reference))?;
            }
        }
        Ok(())
    }
}
