//! A model of document 01: every public function with its whole answer.
//!
//! It is written from the document, 02's requests and docs/DECISIONS.md alone, apart from the port's
//! code and its definitions, and is simple and slow on purpose: lists are `Vec`s, nothing is kept
//! that can be worked out again, and each function reads like the paragraph that it models.
//!
//! Data: opcodes are bytes, values are 64-bit numbers, batches are records of 82 bytes (nine
//! starts, eight flags, eight numbers of eight bytes, little-endian, the count). A function that
//! fills lent outputs is told how long they are and answers their whole contents.

mod batching;
mod bytes;
mod call;
pub mod cases;
mod checks;
mod compare;
mod data;
mod lookups;

pub use batching::build;
pub use bytes::{
    count_bytes, decode, decode_strict, encode, head, own_list, read_count, read_operation,
};
pub use call::{Answer, Arena, Call, Function, Room, Source, answer};
pub use checks::{commitment, padding, record_holds, structure};
pub use compare::{ENTRY, compare};
pub use data::{
    Batch, FIELD, MOST_BATCHES, MOST_BYTES, MOST_LISTED, MOST_PADDED, Operation, RECORD, Refusal,
    batches_of, good_table, kind,
};
pub use lookups::{group, next_group, padded_index, padded_table, raw_index, raw_table};
