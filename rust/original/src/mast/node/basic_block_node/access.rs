//! The way in to what the original keeps private: each function calls one of the original's or
//! takes a value apart. There is no rule of batching here.

use super::{
    BATCH_SIZE, BasicBlockNode, BasicBlockNodeBuilder, Felt, MastForestError, OpBatch, Operation,
    PaddedToRawPrefix, RawToPaddedPrefix, Word,
};

/// The parts of a batch, as they are.
pub(crate) struct Parts {
    pub ops: Vec<Operation>,
    pub starts: [usize; BATCH_SIZE + 1],
    pub flags: [bool; BATCH_SIZE],
    pub numbers: [u64; BATCH_SIZE],
    pub count: usize,
}

/// A batch of any parts, tested by nobody.
pub(crate) fn batch_of(parts: Parts) -> OpBatch {
    OpBatch {
        ops: parts.ops,
        indptr: parts.starts,
        padding: parts.flags,
        groups: parts.numbers.map(Felt::new_unchecked),
        num_groups: parts.count,
    }
}

pub(crate) fn parts_of(batch: &OpBatch) -> Parts {
    Parts {
        ops: batch.ops.clone(),
        starts: batch.indptr,
        flags: batch.padding,
        numbers: batch.groups.map(|number| number.0),
        count: batch.num_groups,
    }
}

/// A node of any batches, also of none (which the original's builder refuses).
pub(crate) fn node_of(op_batches: Vec<OpBatch>) -> BasicBlockNode {
    BasicBlockNode {
        op_batches,
        digest: Word::ZERO,
    }
}

/// The original's public way from a list to batches: its builder.
pub(crate) fn build(ops: Vec<Operation>) -> Result<BasicBlockNode, MastForestError> {
    BasicBlockNodeBuilder::new(ops).build()
}

/// The original's driver alone.
#[inline]
pub(crate) fn batch_ops(ops: &[Operation]) -> Vec<OpBatch> {
    super::batch_ops(ops)
}

#[inline]
pub(crate) fn structure(node: &BasicBlockNode) -> Result<(), String> {
    node.validate_batch_structure()
}

#[inline]
pub(crate) fn padding(node: &BasicBlockNode) -> Result<(), String> {
    node.validate_padding_semantics()
}

#[inline]
pub(crate) fn commitment(node: &BasicBlockNode) -> Result<(), String> {
    node.validate_immediate_commitment()
}

/// The original's table for raw indices.
#[derive(Clone, Debug)]
pub struct RawTable(RawToPaddedPrefix);

impl RawTable {
    #[inline]
    pub fn new(batches: &[OpBatch]) -> Self {
        Self(RawToPaddedPrefix::new(batches))
    }

    pub fn entries(&self) -> &[usize] {
        &self.0.0
    }

    /// The original's lookup of an entry. It panics past the last one.
    #[inline]
    pub fn entry(&self, index: usize) -> usize {
        self.0[index]
    }
}

/// The original's table for padded indices.
#[derive(Clone, Debug)]
pub struct PaddedTable(PaddedToRawPrefix);

impl PaddedTable {
    #[inline]
    pub fn new(batches: &[OpBatch]) -> Self {
        Self(PaddedToRawPrefix::new(batches))
    }

    pub fn entries(&self) -> &[usize] {
        &self.0.0
    }

    /// The original's lookup of an entry. It panics past the last one.
    #[inline]
    pub fn entry(&self, index: usize) -> usize {
        self.0[index]
    }
}
