//! The original's own files, compiled unchanged over a small stand-in for what was not published
//! (STANDIN.md says which is which), and a way to call them over plain data.
//!
//! Two ways in: the functions of this root work on plain data, answer on every input and never
//! panic; [`raw`] calls the original on prepared values with nothing added, for timing.

// The original is written for a crate without the standard library.
#[macro_use]
extern crate alloc;

mod standin {
    pub mod field;
    pub mod hasher;
    pub mod prettier;
    pub mod serde;
    pub mod utils;
}

// The names under which the original's files look for what they lean on.
use standin::{
    field::{Felt, Word, ZERO},
    prettier, serde, utils,
};
mod chiplets {
    pub use crate::standin::hasher;
}

#[allow(dead_code)]
mod mast;

/// The original's own text.
#[allow(dead_code, unused_imports)]
mod operations {
    include!(concat!(env!("OUT_DIR"), "/operations/mod.rs"));
}

mod api;
mod refused;

pub mod raw;

pub use api::{
    Batch, batch, commitment, decode, encode, invariants, length, next_op_group_index,
    op_idx_in_batch_to_group, operation, padded_table, padded_to_raw, padding, raw_operations,
    raw_table, raw_to_padded, structure, table,
};
pub use mast::{BasicBlockNode, OpBatch};
pub use operations::Operation;
pub use refused::Refused;

/// The original's files that were compiled: name, lines, and a number that tells one text from
/// another.
pub const TEXTS: [(&str, usize, u64); 4] = include!(concat!(env!("OUT_DIR"), "/texts.in"));
