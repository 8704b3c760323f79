//! All figures of a config set.

use crate::Alternative;

/// What one check of a set tells of it.
#[derive(Clone, Copy, Debug, Eq, Hash, PartialEq)]
pub struct Figures {
    /// How many subsets there are.
    pub subsets: u32,
    /// The alternative that every config has, if there is one.
    pub unique: Option<Alternative>,
    /// The alternative that is the least of every subset, if there is one.
    pub viable: Option<Alternative>,
    /// Is it settled which alternative is taken?
    pub verdict: bool,
}
