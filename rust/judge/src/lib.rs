//! An independent judge of the calls on a store and on a config set, written from document 01 alone.
//!
//! It judges the lent words clause by clause, works on plain lists of entries and configs, and lays the words
//! out anew. It shares no code with the port or with the runtime's file.
#![forbid(unsafe_code)]

pub mod calls;
pub mod layout;
pub mod makers;
mod merge;
pub mod random;
pub mod set;
pub mod set_calls;
pub mod set_makers;
mod sound;
mod sound_set;
pub mod store;
pub mod verdict_calls;
pub mod verdicts;

pub use calls::{Call, Lent, Outcome, Reply};
pub use set::{Config, ConfigSet};
pub use set_calls::{LentSet, SetCall, SetOutcome};
pub use sound::is_sound;
pub use sound_set::is_sound_set;
pub use store::{Entry, Store};
pub use verdict_calls::{VerdictCall, VerdictOutcome};
pub use verdicts::Reason;
