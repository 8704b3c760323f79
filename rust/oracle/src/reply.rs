//! The line that answers a record.

use std::fmt;

/// A refusal's number in document 01's table.
#[derive(Clone, Copy, Debug, Eq, PartialEq)]
pub struct Refusal(pub u8);

pub const UNKNOWN_CONTEXT: Refusal = Refusal(4);
pub const BAD_STATE: Refusal = Refusal(5);
pub const NO_ROOM: Refusal = Refusal(6);
pub const READ_ONLY: Refusal = Refusal(7);
pub const SET_FULL: Refusal = Refusal(8);
pub const MALFORMED: Refusal = Refusal(9);
pub const TOO_MANY_STOPS: Refusal = Refusal(10);
pub const TOO_MUCH_WORK: Refusal = Refusal(12);

#[derive(Clone, Debug, Eq, PartialEq)]
pub enum Reply {
    /// A context, and how many contexts the call made.
    Context {
        number: u32,
        made: u32,
    },
    NewSet,
    Added {
        inserted: bool,
        made: u32,
    },
    Stops(usize),
    Verdict(Verdict),
    /// Each entry's state and parent; `None` is the empty stack.
    Entries(Vec<Option<(u32, u32)>>),
    Closed,
    Reason(Reason),
}

/// Why the verdict is what it is.
#[derive(Clone, Debug, Eq, PartialEq)]
pub enum Reason {
    Stop,
    NoClash,
    One { state: u32, alternative: u32 },
    Clash { state: u32, context: u32, alternatives: Vec<u32> },
}

#[derive(Clone, Copy, Debug, Eq, PartialEq)]
pub struct Verdict {
    pub subsets: usize,
    pub unique: Option<u32>,
    pub viable: Option<u32>,
    pub terminates: bool,
}

impl fmt::Display for Refusal {
    fn fmt(&self, out: &mut fmt::Formatter<'_>) -> fmt::Result {
        write!(out, "R {}", self.0)
    }
}

impl fmt::Display for Reply {
    fn fmt(&self, out: &mut fmt::Formatter<'_>) -> fmt::Result {
        match self {
            Reply::Context { number, made } => write!(out, "C {number} {made}"),
            Reply::NewSet => write!(out, "N"),
            Reply::Added { inserted, made } => write!(out, "A {} {made}", u8::from(*inserted)),
            Reply::Stops(held) => write!(out, "S {held}"),
            Reply::Verdict(verdict) => write!(out, "{verdict}"),
            Reply::Entries(entries) => show_entries(entries, out),
            Reply::Closed => write!(out, "K"),
            Reply::Reason(reason) => write!(out, "{reason}"),
        }
    }
}

impl fmt::Display for Verdict {
    /// Where there is no alternative, `-` is printed; 0 is alternative 0.
    fn fmt(&self, out: &mut fmt::Formatter<'_>) -> fmt::Result {
        let unique = shown(self.unique);
        let viable = shown(self.viable);
        let terminates = u8::from(self.terminates);
        write!(out, "V {} {unique} {viable} {terminates}", self.subsets)
    }
}

impl fmt::Display for Reason {
    fn fmt(&self, out: &mut fmt::Formatter<'_>) -> fmt::Result {
        match self {
            Reason::Stop => write!(out, "W stop"),
            Reason::NoClash => write!(out, "W none"),
            Reason::One { state, alternative } => write!(out, "W one {state} {alternative}"),
            Reason::Clash { state, context, alternatives } => {
                write!(out, "W clash {state} {context}")?;
                alternatives.iter().try_for_each(|alternative| write!(out, " {alternative}"))
            }
        }
    }
}

fn shown(alternative: Option<u32>) -> String {
    alternative.map_or_else(|| "-".to_owned(), |number| number.to_string())
}

fn show_entries(entries: &[Option<(u32, u32)>], out: &mut fmt::Formatter<'_>) -> fmt::Result {
    write!(out, "E {}", entries.len())?;
    for entry in entries {
        match entry {
            Some((state, parent)) => write!(out, " {state}>{parent}")?,
            None => write!(out, " $")?,
        }
    }
    Ok(())
}
