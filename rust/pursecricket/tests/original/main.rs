//! The original's own tests, held against the crate.
//!
//! They are those of `mod tests` in the runtime's `prediction.rs` (rust/oracle/src/prediction.rs, where they
//! run against the runtime itself) that ask about what is carried over: its authors' tests, under the licence
//! in NOTICE. Names, inputs and expected values are theirs. The calls are ours: an answer may be a refusal, no
//! workspace is passed, semantic contexts and provenances are plain numbers, and an array is made by full
//! merges, since interning is not public. docs/DECISIONS.md says which tests and assertions are left out.

mod arena;
mod config_set;
mod graph_nodes;
mod verdicts;
