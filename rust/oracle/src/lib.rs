//! The oracle: the Rust runtime's own `prediction.rs`, driven by the scripts of document 01.
//!
//! `prediction` holds the runtime's file byte for byte; its children `driver` and `words` reach its
//! private fields. `counted` counts the work of a merge by request A10. Everything else here reads, writes,
//! makes and compares scripts.

/// The runtime's file, included so that modules of ours can be its children.
#[allow(dead_code, clippy::all)]
pub mod prediction {
    include!("prediction.rs");

    pub mod driver;
    pub mod words;

    #[cfg(test)]
    mod facts;
    #[cfg(test)]
    #[path = "snapshots.rs"]
    mod insta;
}

pub mod compare;
pub mod counted;
pub mod generate;
pub mod record;
pub mod reply;
pub mod run;
pub mod sample;
pub mod text;
