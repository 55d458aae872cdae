//! Basic blocks: batches, checks, index tables, bytes written and read, by a proved library.
//!
//! Every function answers on every input: with a result, or with a [`Refusal`] that has a number and
//! a place. Nothing here panics. The functions of the root make room of their own; those of [`lent`]
//! work on the caller's slices and allocate nothing; so do those of [`le`], over bytes alone.
//!
//! An operation is an opcode and a value. What an opcode's value is, a table of 128 kinds says: 0
//! none; 1 an immediate, placed in a group; 2 a value that is carried but never placed; 3 the
//! opcode is unassigned. Opcode 0 is Noop, of kind 0. Values are below 2^64 - 2^32 + 1, the field's
//! size. An unknown opcode ([`Cause::Opcode`], 4) is told from a value that is not to be had
//! ([`Cause::Value`], 17), and the first operation at fault is named.
//!
//! ```
//! // Opcodes 0 and 2 have no value, 1 an immediate, 3 a value that is only carried.
//! let mut table = [3; 128];
//! table[..4].copy_from_slice(&[0, 1, 0, 2]);
//!
//! let block = oliastrofu::build(&table, &[2, 1, 3], &[0, 5, 9])?;
//! oliastrofu::commitment(&table, &block)?;
//! let bytes = oliastrofu::encode(&table, &block)?;
//!
//! let (read, used) = oliastrofu::decode(&table, &bytes, 0)?;
//! assert_eq!((read, used), (block, bytes.len()));
//! # Ok::<(), oliastrofu::Refusal>(())
//! ```
//!
//! Not every block that can be read is one that batching makes: it may have empty batches or groups,
//! or flags that stand for nothing. [`decode_strict`] takes only those that batching makes, and gives
//! a [`Finished`], which can't be had otherwise.
//!
//! [`compare`] says how two blocks differ, difference by difference ([`Difference`]).
//!
//! ```
//! // Two batches, push(5) with a padding and one more operation; and one batch, push(6) and three more.
//! let bytes = [
//!     7, 91, 5, 0, 0, 0, 0, 0, 0, 0, 0, 34, 2, 0, 0, 0, 2, 0, 0, 0, 1, 0, 0, 0, 1, 0,
//! ];
//! let others = [
//!     9, 91, 6, 0, 0, 0, 0, 0, 0, 0, 34, 35, 41, 1, 0, 0, 0, 3, 1, 0, 0, 0,
//! ];
//! let first = oliastrofu::Source { table: &oliastrofu::VM_TABLE, bytes: &bytes, at: 0 };
//! let second = oliastrofu::Source { bytes: &others, ..first };
//! let mut lines = Vec::new();
//! for difference in &oliastrofu::compare(first, second)? {
//!     lines.push(difference.to_string());
//! }
//! assert_eq!(
//!     lines,
//!     [
//!         "batch 0, group 0: the numbers differ",
//!         "batch 0, group 0: the padding flags differ",
//!         "batch 0, group 0: the counts of operations differ",
//!         "batch 0, its operation 0: the operations differ",
//!         "batch 0: the counts of groups differ",
//!         "batch 1: missing in the second block",
//!         "batches: -1 (second minus first)",
//!         "operations, paddings among them: +1 (second minus first)",
//!         "operations without paddings: +2 (second minus first)",
//!         "paddings: -1 (second minus first)",
//!     ]
//! );
//! # Ok::<(), oliastrofu::CompareRefusal>(())
//! ```

#![deny(unsafe_code)]
#![deny(
    clippy::arithmetic_side_effects,
    clippy::expect_used,
    clippy::indexing_slicing,
    clippy::panic,
    clippy::unreachable,
    clippy::unwrap_used
)]

mod batch;
pub mod boundary;
mod compare;
mod finished;
pub mod le;
pub mod lent;
mod owned;
mod refusal;

pub use batch::{
    Arena, Batch, Block, PaddedIndex, PaddedTable, RECORD, RawIndex, RawTable, VM_TABLE,
};
pub use compare::{
    CompareRefusal, Difference, Differences, ENTRY, LONGEST_REPORT, Report, Side, Source,
};
pub use finished::Finished;
pub use owned::{
    build, commitment, compare, decode, decode_strict, encode, group_of, head, next_group,
    padded_index, padded_table, padding, raw_index, raw_table, structure,
};
pub use refusal::{Cause, Refusal};
