//! Why a call was refused.

use std::error::Error;
use std::fmt;

/// Document 01's refusals of calls on a store and on a config set, in the order of checking; of the last two the
/// one that a call reaches first.
#[derive(Clone, Copy, Debug, Eq, Hash, PartialEq)]
#[non_exhaustive]
pub enum Refusal {
    /// A lent slice has a wrong length.
    WrongLength,
    /// The store is not sound.
    UnsoundStore,
    /// The config set is not sound, or has a context that the store does not have.
    UnsoundSet,
    /// More than 64 stop states.
    TooManyStops,
    /// A config for a set that is read-only.
    ReadOnlySet,
    /// A context number is not below the store's count.
    UnknownContext,
    /// A return state from 4294967295 to 18446744073709551614.
    StateOutOfRange,
    /// A config with a new key for a set of 256.
    FullSet,
    /// The call would end above 512 contexts or 2,048 pool entries, and comes there before it is too much work.
    FullStore,
    /// The call would count more than 65,536 merges, and comes there while there is room.
    TooMuchWork,
}

impl Refusal {
    /// The number in document 01's table.
    pub const fn number(self) -> u32 {
        match self {
            Refusal::WrongLength => 2,
            Refusal::UnsoundStore => 1,
            Refusal::UnsoundSet => 3,
            Refusal::TooManyStops => 10,
            Refusal::ReadOnlySet => 7,
            Refusal::UnknownContext => 4,
            Refusal::StateOutOfRange => 5,
            Refusal::FullSet => 8,
            Refusal::FullStore => 6,
            Refusal::TooMuchWork => 12,
        }
    }

    /// The refusal that a door answers; `None` for 0, which is no refusal.
    pub(crate) fn from_number(number: u32) -> Option<Self> {
        match number {
            0 => None,
            1 => Some(Refusal::UnsoundStore),
            2 => Some(Refusal::WrongLength),
            3 => Some(Refusal::UnsoundSet),
            4 => Some(Refusal::UnknownContext),
            5 => Some(Refusal::StateOutOfRange),
            6 => Some(Refusal::FullStore),
            7 => Some(Refusal::ReadOnlySet),
            8 => Some(Refusal::FullSet),
            10 => Some(Refusal::TooManyStops),
            12 => Some(Refusal::TooMuchWork),
            other => unreachable!("the library's contracts give no refusal {other} here"),
        }
    }
}

impl fmt::Display for Refusal {
    fn fmt(&self, out: &mut fmt::Formatter<'_>) -> fmt::Result {
        let why = match self {
            Refusal::WrongLength => "a lent slice has a wrong length",
            Refusal::UnsoundStore => "the store is not sound",
            Refusal::UnsoundSet => "the config set is not sound in this store",
            Refusal::TooManyStops => "there are more than 64 stop states",
            Refusal::ReadOnlySet => "the config set is read-only",
            Refusal::UnknownContext => "a context number is not below the count",
            Refusal::StateOutOfRange => "a return state is too large to be stored",
            Refusal::FullSet => "the config set has no room",
            Refusal::FullStore => "the store has no room",
            Refusal::TooMuchWork => "the merge is too much work",
        };
        write!(out, "refusal {}: {why}", self.number())
    }
}

impl Error for Refusal {}
