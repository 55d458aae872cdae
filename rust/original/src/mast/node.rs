//! Stands in for the crate's `mast::node`: the traits that a basic block's node and its builder
//! implement. The signatures are those that the original's implementations call for.

use core::fmt::Display;

use super::{MastForest, MastForestError, MastNodeId};
use crate::{Felt, Word, prettier::PrettyPrint, utils::LookupByIdx};

pub(crate) mod basic_block_node;

pub(crate) use basic_block_node::collect_immediate_placements;
pub use basic_block_node::{
    BATCH_SIZE as OP_BATCH_SIZE, BasicBlockNode, GROUP_SIZE as OP_GROUP_SIZE, OpBatch,
};

/// Stands in for what a builder may ask of its surroundings. Its methods are not used.
pub trait MastNodeContext {}

/// Stands in for the trait of node builders.
pub trait MastForestContributor {
    fn fingerprint_for_node(
        &self,
        context: &impl MastNodeContext,
        hashes: &impl LookupByIdx<MastNodeId, Word>,
    ) -> Result<Word, MastForestError>;

    fn remap_children(self, remapping: &impl LookupByIdx<MastNodeId, MastNodeId>) -> Self;

    fn with_digest(self, digest: Word) -> Self;
}

/// Stands in for the trait of nodes.
pub trait MastNodeExt {
    type Builder: MastForestContributor;

    fn digest(&self) -> Word;
    fn domain(&self) -> Felt;
    fn has_children(&self) -> bool;
    fn append_children_to(&self, target: &mut Vec<MastNodeId>);
    fn for_each_child<F: FnMut(MastNodeId)>(&self, f: F);
    fn to_builder(self, forest: &MastForest) -> Self::Builder;
    fn to_display<'a>(&'a self, forest: &'a MastForest) -> Box<dyn Display + 'a>;
    fn to_pretty_print<'a>(&'a self, forest: &'a MastForest) -> Box<dyn PrettyPrint + 'a>;
}
