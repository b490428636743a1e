//! The refusal numbers of document 01; 12 is missing, since no calls lead there.

#[derive(Clone, Copy, Debug, PartialEq, Eq, PartialOrd, Ord)]
pub enum Refusal {
    NotLoaded = 1,
    Size = 2,
    Duration = 3,
    From = 4,
    Owner = 5,
    Entries = 6,
    InForce = 7,
    Positions = 8,
    ShortStore = 9,
    Room = 10,
    InvalidEntry = 11,
}

impl Refusal {
    pub fn number(self) -> u8 {
        self as u8
    }

    /// `Err(self)` if `given`, so that a call lists its refusals in their order.
    pub fn when(self, given: bool) -> Result<(), Refusal> {
        if given {
            Err(self)
        } else {
            Ok(())
        }
    }
}
