//! Why a call did nothing.

use std::fmt;

use crate::answer::Answer;
use crate::sizes::STORE_BYTES;

/// The list has too little room for four numbers for each answer. Nothing was run, and the list is as it was.
#[derive(Debug, Clone, Copy, PartialEq, Eq)]
pub struct Short {
    /// How many numbers the answers take.
    pub needed: usize,
    /// How many the list has.
    pub room: usize,
}

impl fmt::Display for Short {
    fn fmt(&self, out: &mut fmt::Formatter<'_>) -> fmt::Result {
        let Self { needed, room } = self;
        write!(
            out,
            "the answers take {needed} numbers, and the list has {room}"
        )
    }
}

impl std::error::Error for Short {}

/// A field that has no form on the tape, since it is longer than its room there. Nothing was written.
#[derive(Debug, Clone, Copy, PartialEq, Eq)]
pub struct TooLong {
    /// The field, by its name in this crate.
    pub field: &'static str,
    /// How many bytes it has; how many elements where it is a list.
    pub length: usize,
    /// How many the tape has room for.
    pub room: usize,
}

impl fmt::Display for TooLong {
    fn fmt(&self, out: &mut fmt::Formatter<'_>) -> fmt::Result {
        let Self {
            field,
            length,
            room,
        } = self;
        write!(
            out,
            "{field}: {length} are too many, the tape has room for {room}"
        )
    }
}

impl std::error::Error for TooLong {}

/// Memory that is no store.
#[derive(Debug, Clone, Copy, PartialEq, Eq)]
pub enum NotAStore {
    /// It has another length.
    Length(usize),
    /// It is as long as a store, but not sound: reason 12.
    Unsound,
}

impl fmt::Display for NotAStore {
    fn fmt(&self, out: &mut fmt::Formatter<'_>) -> fmt::Result {
        match self {
            Self::Length(length) => {
                write!(
                    out,
                    "a store has {STORE_BYTES} bytes, and these are {length}"
                )
            }
            Self::Unsound => write!(out, "these bytes are no sound store"),
        }
    }
}

impl std::error::Error for NotAStore {}

/// Why there is no store.
#[derive(Debug, Clone, Copy, PartialEq, Eq)]
pub enum OpenError {
    /// The opening has no form on the tape.
    TooLong(TooLong),
    /// The opening is refused: reason 10.
    Refused(Answer),
}

impl fmt::Display for OpenError {
    fn fmt(&self, out: &mut fmt::Formatter<'_>) -> fmt::Result {
        match self {
            Self::TooLong(error) => error.fmt(out),
            Self::Refused(answer) => answer.fmt(out),
        }
    }
}

impl std::error::Error for OpenError {}

impl From<TooLong> for OpenError {
    fn from(error: TooLong) -> Self {
        Self::TooLong(error)
    }
}

impl From<Answer> for OpenError {
    fn from(answer: Answer) -> Self {
        Self::Refused(answer)
    }
}
