//! The refusal numbers of document 01.

use std::error::Error;
use std::fmt::{Display, Formatter};

/// Why a call was refused. All but `BadStore` leave everything as it was.
#[derive(Clone, Copy, Debug, PartialEq, Eq, PartialOrd, Ord, Hash)]
pub enum Refusal {
    /// The store isn't loaded.
    NotLoaded = 1,
    /// Load: a count or a table's length breaks its size.
    Size = 2,
    /// Load: a duration is over 2^40.
    Duration = 3,
    /// Load: a fixed `from` is n or more, or falls along the list.
    From = 4,
    /// The owner is not below the owner count.
    Owner = 5,
    /// Put: more than 1,024 entries.
    Entries = 6,
    /// Put: over 1,024 valid entries would be in force.
    InForce = 7,
    /// A move's positions are bad.
    Positions = 8,
    /// A slice of the store is shorter than its constant.
    ShortStore = 9,
    /// The answer buffer has fewer places than the answer needs.
    Room = 10,
    /// Move: the owner's route in force was put with an invalid entry.
    InvalidEntry = 11,
    /// The store holds what no calls could have left.
    BadStore = 12,
}

impl Refusal {
    /// By number, 1 to 12.
    pub const ALL: [Refusal; 12] = [
        Refusal::NotLoaded,
        Refusal::Size,
        Refusal::Duration,
        Refusal::From,
        Refusal::Owner,
        Refusal::Entries,
        Refusal::InForce,
        Refusal::Positions,
        Refusal::ShortStore,
        Refusal::Room,
        Refusal::InvalidEntry,
        Refusal::BadStore,
    ];

    /// Document 01's number.
    pub fn number(self) -> u32 {
        self as u32
    }

    /// What a call's code says: 0 is accepted.
    ///
    /// ```
    /// use notekarip::Refusal;
    ///
    /// assert_eq!(Refusal::check(0), Ok(()));
    /// assert_eq!(Refusal::check(5), Err(Refusal::Owner));
    /// ```
    ///
    /// # Panics
    ///
    /// On a code above 12: a call gives none.
    pub fn check(code: u32) -> Result<(), Refusal> {
        match code.checked_sub(1) {
            None => Ok(()),
            Some(place) => Err(Refusal::ALL[place as usize]),
        }
    }

    fn words(self) -> &'static str {
        match self {
            Refusal::NotLoaded => "the store isn't loaded",
            Refusal::Size => "a count or a table's length breaks its size",
            Refusal::Duration => "a duration is over 2^40",
            Refusal::From => "a fixed `from` is no job, or falls along the list",
            Refusal::Owner => "the owner is not below the owner count",
            Refusal::Entries => "more than 1,024 entries",
            Refusal::InForce => "over 1,024 valid entries would be in force",
            Refusal::Positions => "a move's positions are bad",
            Refusal::ShortStore => "a slice of the store is too short",
            Refusal::Room => "the answer buffer has too few places",
            Refusal::InvalidEntry => "the route in force was put with an invalid entry",
            Refusal::BadStore => "the store holds what no calls could have left",
        }
    }
}

impl Display for Refusal {
    fn fmt(&self, out: &mut Formatter<'_>) -> std::fmt::Result {
        write!(out, "refusal {}: {}", self.number(), self.words())
    }
}

impl Error for Refusal {}
