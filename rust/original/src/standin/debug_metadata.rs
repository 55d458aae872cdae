//! Stands in for the child module of operations/mod.rs, which was not published. The module
//! passes one name on and uses nothing of it.

/// Stands in for the assembler's notes on an operation.
pub struct AssemblyOp;
