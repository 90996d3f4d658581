//! The work of a zone: asked or agreed, on which turnouts, and which of them are open to work.
//! ZONE-1: "Each zone holds its work (none, asked or agreed)".

use crate::message::Form;
use crate::refusal::Refusal;
use crate::set::Set;

#[derive(Clone, Copy, Debug, PartialEq, Eq)]
pub struct Works {
    pub id: u32,
    pub form: Form,
    pub turnouts: Set,
}

#[derive(Clone, Copy, Debug, PartialEq, Eq)]
pub enum Work {
    None,
    Asked(Works),
    Agreed { works: Works, since: u32, open: Set },
}

impl Work {
    /// KIND-2.1, KIND-3.1, KIND-4.1, KIND-10.1, KIND-11.1, 15: "no work or movement under this id".
    pub fn under(&self, id: u32) -> Result<Works, Refusal> {
        match self {
            Work::Asked(works) | Work::Agreed { works, .. } if works.id == id => Ok(*works),
            _ => Err(Refusal::UnknownId),
        }
    }

    /// The turnouts under agreed work.
    pub fn agreed_turnouts(&self) -> Set {
        match self {
            Work::Agreed { works, .. } => works.turnouts,
            _ => 0,
        }
    }

    pub fn open(&self) -> Set {
        match self {
            Work::Agreed { open, .. } => *open,
            _ => 0,
        }
    }

    pub fn shut(&mut self, turnouts: Set) {
        if let Work::Agreed { open, .. } = self {
            *open &= !turnouts;
        }
    }
}
