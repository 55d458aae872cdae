// The original's own text (with its child module op_batch), and beside it one child module that
// can reach what the original keeps private.

include!(concat!(
    env!("OUT_DIR"),
    "/mast/node/basic_block_node/mod.rs"
));

pub(crate) mod access;
