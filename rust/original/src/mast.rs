//! Stands in for the crate's `mast`: the forest's types as far as the files name them.

pub(crate) mod node;
pub(crate) mod serialization;

pub(crate) use node::collect_immediate_placements;
pub use node::{BasicBlockNode, OP_BATCH_SIZE, OP_GROUP_SIZE, OpBatch};

/// Stands in for the forest. Nothing that is compared or timed looks into one.
pub struct MastForest;

/// Stands in for a node's number in a forest.
pub struct MastNodeId;

/// Stands in for the forest's errors: the only one that a basic block's builder gives.
#[derive(Clone, Copy, Debug, PartialEq, Eq)]
pub enum MastForestError {
    EmptyBasicBlock,
}
