//! The original on prepared values, with nothing added: for timing. What the original panics on,
//! panics here.

use crate::{
    BasicBlockNode, OpBatch, Operation,
    mast::{node::basic_block_node::access, serialization},
};

pub use crate::mast::node::basic_block_node::access::{PaddedTable, RawTable};
pub use crate::serde::DeserializationError;

/// The greedy driver.
#[inline]
pub fn build(ops: &[Operation]) -> Vec<OpBatch> {
    access::batch_ops(ops)
}

/// A node of any batches, tested by nobody.
pub fn node(batches: Vec<OpBatch>) -> BasicBlockNode {
    access::node_of(batches)
}

/// The block's bytes, in a fresh buffer.
#[inline]
pub fn encode(node: &BasicBlockNode) -> Vec<u8> {
    serialization::encode(node)
}

#[inline]
pub fn decode(bytes: &[u8], offset: u32) -> Result<Vec<OpBatch>, DeserializationError> {
    serialization::decode(bytes, offset)
}

/// The operations without padding.
#[inline]
pub fn list(node: &BasicBlockNode) -> Vec<Operation> {
    node.raw_operations().copied().collect()
}

#[inline]
pub fn structure(node: &BasicBlockNode) -> Result<(), String> {
    access::structure(node)
}

#[inline]
pub fn padding(node: &BasicBlockNode) -> Result<(), String> {
    access::padding(node)
}

#[inline]
pub fn commitment(node: &BasicBlockNode) -> Result<(), String> {
    access::commitment(node)
}
