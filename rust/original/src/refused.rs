//! What the original says when it refuses, in document 01's numbers and 17 of M-101, and what it does
//! when it panics.

use std::{
    cell::Cell,
    fmt,
    panic::{AssertUnwindSafe, catch_unwind, set_hook, take_hook},
    sync::Once,
};

use crate::serde::DeserializationError;

/// A refusal or a panic of the original.
#[derive(Clone, Debug, PartialEq, Eq)]
pub struct Refused {
    /// The number for what the original says, or 0 where there is none (a panic; a call
    /// that could not be made).
    pub number: u8,
    /// The batch or operation that the original names, if it names one.
    pub place: Option<usize>,
    /// True if the original panicked.
    pub panicked: bool,
    /// The original's words, or this crate's where the call could not be made.
    pub words: String,
}

impl fmt::Display for Refused {
    fn fmt(&self, f: &mut fmt::Formatter<'_>) -> fmt::Result {
        let how = if self.panicked { "panic" } else { "refusal" };
        write!(f, "{how} {} {:?}: {}", self.number, self.place, self.words)
    }
}

impl Refused {
    pub(crate) fn new(number: u8, place: Option<usize>, words: impl Into<String>) -> Self {
        Self {
            number,
            place,
            panicked: false,
            words: words.into(),
        }
    }

    /// A check's refusal. Every one of them begins with the batch.
    pub(crate) fn check(number: u8, words: String) -> Self {
        Self::new(number, batch_named(&words), words)
    }

    /// The commitment's refusal: a slot (8, 9) or a number (16).
    pub(crate) fn commitment(words: String) -> Self {
        let number = slot(&words).unwrap_or(16);
        Self::check(number, words)
    }

    /// The refusal of all checks together; for those that document 01 leaves out, 0.
    pub(crate) fn invariants(words: String) -> Self {
        Self::check(0, words)
    }

    /// The decoder's refusal.
    pub(crate) fn decoding(error: DeserializationError) -> Self {
        let words = match error {
            DeserializationError::UnexpectedEOF => return Self::new(2, None, "end of bytes"),
            DeserializationError::CountForm => return Self::new(3, None, "form of a count"),
            DeserializationError::NotInField => return Self::new(17, None, "value not in field"),
            DeserializationError::InvalidValue(words) => words,
        };
        // A word or two of each of the original's sentences is enough to tell them apart.
        let keys = [
            ("ops_offset", 1),
            ("Invalid opcode", 4),
            ("batch count", 5),
            ("indptr delta", 6),
            ("batch_op_end", 7),
            ("batch metadata", 11),
        ];
        let number = slot(&words)
            .or_else(|| {
                keys.iter()
                    .find(|(key, _)| words.starts_with(key))
                    .map(|&(_, n)| n)
            })
            .or_else(|| batch_named(&words).map(|_| 10))
            .unwrap_or(0);
        Self::new(number, batch_named(&words), words)
    }
}

/// 8 or 9 if the words are of an immediate's slot.
fn slot(words: &str) -> Option<u8> {
    if words.contains("exceeds group slots") || words.contains("exceeds num_groups") {
        Some(8)
    } else if words.contains("overlaps operation group") {
        Some(9)
    } else {
        None
    }
}

/// The number after a leading "batch".
fn batch_named(words: &str) -> Option<usize> {
    let rest = words
        .strip_prefix("Batch ")
        .or_else(|| words.strip_prefix("batch "))?;
    let digits = rest
        .find(|c: char| !c.is_ascii_digit())
        .unwrap_or(rest.len());
    rest[..digits].parse().ok()
}

thread_local! {
    static CAUGHT: Cell<bool> = const { Cell::new(false) };
}

/// Calls the original; a panic becomes an answer, and nothing is printed.
pub(crate) fn caught<T>(call: impl FnOnce() -> T) -> Result<T, Refused> {
    static QUIET: Once = Once::new();
    QUIET.call_once(|| {
        let others = take_hook();
        set_hook(Box::new(move |info| {
            if !CAUGHT.get() {
                others(info);
            }
        }));
    });
    let outer = CAUGHT.replace(true);
    let answer = catch_unwind(AssertUnwindSafe(call));
    CAUGHT.set(outer);
    answer.map_err(|payload| {
        let words = payload
            .downcast_ref::<String>()
            .map(String::as_str)
            .or_else(|| payload.downcast_ref::<&str>().copied())
            .unwrap_or("no words");
        Refused {
            number: 0,
            place: None,
            panicked: true,
            words: words.into(),
        }
    })
}
