//! The movement of a zone: its train and route, its order, what is cleared or released by a key for it, and the regime
//! that follows.

use crate::refusal::Refusal;
use crate::set::Set;
use crate::station::Route;

#[derive(Clone, Copy, Debug, PartialEq, Eq)]
pub struct Train<'s> {
    pub id: u32,
    /// The route's number in the station, and the route.
    pub number: u8,
    pub route: &'s Route,
    /// 0, or the aspect it was ordered with.
    pub order: u8,
    pub cleared: Set,
    /// Of those cleared, the ones declared all efficient.
    pub efficient: Set,
    /// Those with a key. KIND-13.5.
    pub keys: Set,
}

impl Train<'_> {
    pub fn ordered(&self) -> bool {
        self.order != 0
    }

    /// The turnouts cleared or with a key: they lack nothing, and neither is given again.
    pub fn settled(&self) -> Set {
        self.cleared | self.keys
    }

    /// REGIME-1, REGIME-2, REGIME-3: "of the route's turnouts under agreed work, held if one lacks a clearance, else
    /// clear if all carry 1 or 2, else danger". KIND-13.5: "A turnout with a key counts as lacking nothing"; REGIME-2:
    /// clear where each has "either its efficient clearance or its key".
    pub fn standing(&self, agreed: Set) -> Standing {
        let worked = self.route.named() & agreed;
        let lacking = worked & !self.settled();
        let regime = if lacking != 0 {
            Regime::Held
        } else if worked & !(self.efficient | self.keys) == 0 {
            Regime::Clear
        } else {
            Regime::Danger
        };
        Standing { regime, lacking }
    }
}

#[derive(Clone, Copy, Debug, PartialEq, Eq)]
pub enum Movement<'s> {
    None,
    Standing(Train<'s>),
}

impl<'s> Movement<'s> {
    /// KIND-6.1, KIND-7.1, KIND-8.1, KIND-9.1, KIND-13.1, ASK-2, 15: "no work or movement under this id".
    pub fn under(&self, id: u32) -> Result<Train<'s>, Refusal> {
        match self {
            Movement::Standing(train) if train.id == id => Ok(*train),
            _ => Err(Refusal::UnknownId),
        }
    }

    pub fn names(&self, turnouts: Set) -> bool {
        match self {
            Movement::Standing(train) => train.route.named() & turnouts != 0,
            Movement::None => false,
        }
    }

    pub fn cleared(&self) -> Set {
        match self {
            Movement::Standing(train) => train.cleared,
            Movement::None => 0,
        }
    }
}

#[derive(Clone, Copy, Debug, PartialEq, Eq)]
pub enum Regime {
    Held,
    Clear,
    Danger,
}

/// The regime and the turnouts still lacking a clearance, without a key.
#[derive(Clone, Copy, Debug, PartialEq, Eq)]
pub struct Standing {
    pub regime: Regime,
    pub lacking: Set,
}
