//! The refusals of the desk, the journal and the verdicts: "Numbers the desk returns", in docs/RULES.md "All numbers".
//! 7 and 8 are the writer's (WRITE-3, WRITE-4), 23 is that of keys (KIND-13.4). Those of reading a sheet carry a record
//! index and stand in `sheet`.

#[derive(Clone, Copy, Debug, PartialEq, Eq)]
pub enum Refusal {
    /// A station that, as it stands, no sheet describes.
    NoSheet = 7,
    /// A buffer shorter than the sheet.
    ShortBuffer = 8,
    RecordLength = 10,
    Kind = 11,
    Zone = 12,
    Field = 13,
    Clock = 14,
    UnknownId = 15,
    Occupied = 16,
    Place = 17,
    Stage = 18,
    Conflict = 19,
    Unfit = 20,
    Channel = 21,
    Regime = 22,
    /// A key that may not be used for the turnout.
    Key = 23,
    Journal = 30,
    Full = 31,
    NoRecord = 32,
    Range = 33,
}

impl Refusal {
    pub fn number(self) -> u8 {
        self as u8
    }
}

/// A check: refused by `refusal` where the fault is there.
pub fn refuse(fault: bool, refusal: Refusal) -> Result<(), Refusal> {
    if fault {
        Err(refusal)
    } else {
        Ok(())
    }
}

/// The number a call returns: 0 if accepted.
pub fn number<T>(result: &Result<T, Refusal>) -> u8 {
    result.as_ref().map_or_else(|refusal| refusal.number(), |_| 0)
}
