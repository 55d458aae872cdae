//! Stands in for the crate's `mast::serialization`: the type of an offset, and the way in to the
//! original's own basic_blocks.rs.

use self::basic_blocks::{BasicBlockDataBuilder, BasicBlockDataDecoder};
use super::{BasicBlockNode, OpBatch};
use crate::serde::DeserializationError;

include!(concat!(env!("OUT_DIR"), "/mast/serialization/modules.in"));

/// An offset into the bytes of all blocks.
pub(crate) type NodeDataOffset = u32;

#[inline]
pub(crate) fn encode(node: &BasicBlockNode) -> Vec<u8> {
    let mut builder = BasicBlockDataBuilder::new();
    builder.encode_basic_block(node);
    builder.finalize()
}

#[inline]
pub(crate) fn decode(
    bytes: &[u8],
    offset: NodeDataOffset,
) -> Result<Vec<OpBatch>, DeserializationError> {
    BasicBlockDataDecoder::new(bytes).decode_operations(offset)
}

/// The length of a block, as the original reckons it.
pub(crate) fn length(node: &BasicBlockNode) -> usize {
    basic_blocks::basic_block_data_len(node)
}
