//! The original over plain data: every function answers on every input.

use crate::{
    BasicBlockNode, OpBatch, Operation, Refused,
    mast::{
        node::basic_block_node::access::{self, PaddedTable, Parts, RawTable},
        serialization,
    },
    refused::caught,
    serde::{ByteWriter, Deserializable, Serializable, SliceReader},
};

/// A batch as plain data: its padded operations (opcode and value), the nine starts, the eight
/// flags, the eight group numbers and the group count.
#[derive(Clone, Debug, Default, PartialEq, Eq)]
pub struct Batch {
    pub ops: Vec<(u8, u64)>,
    pub starts: [usize; 9],
    pub flags: [bool; 8],
    pub numbers: [u64; 8],
    pub count: usize,
}

// OPERATIONS
// ================================================================================================

/// The kind of each opcode in document 01's sense, found by asking the original's reader and
/// `imm_value`: 0 no value, 1 an immediate, 2 a value that is only carried, 3 unassigned.
pub fn table() -> [u8; 128] {
    core::array::from_fn(|opcode| match read(opcode as u8, 1) {
        None => 3,
        Some((_, 1)) => 0,
        Some((op, _)) if op.imm_value().is_some() => 1,
        Some(_) => 2,
    })
}

/// The operation of an opcode and a value, read by the original from the bytes of the two; none
/// if it refuses them, or if a value other than 0 is not read.
pub fn operation(opcode: u8, value: u64) -> Option<Operation> {
    let (op, used) = read(opcode, value)?;
    (used > 1 || value == 0).then_some(op)
}

/// The operation and the bytes read.
fn read(opcode: u8, value: u64) -> Option<(Operation, usize)> {
    let mut bytes = [opcode; 9];
    bytes[1..].copy_from_slice(&value.to_le_bytes());
    let mut reader = SliceReader::new(&bytes);
    let op = Operation::read_from(&mut reader).ok()?;
    Some((op, reader.used()))
}

/// Room for the bytes of one operation.
struct Written {
    bytes: [u8; 9],
    at: usize,
}

impl ByteWriter for Written {
    fn write_u8(&mut self, value: u8) {
        self.write_bytes(&[value]);
    }

    fn write_bytes(&mut self, values: &[u8]) {
        self.bytes[self.at..][..values.len()].copy_from_slice(values);
        self.at += values.len();
    }
}

/// The opcode and value of an operation, from the bytes that the original writes for it.
fn parts(op: &Operation) -> (u8, u64) {
    let mut written = Written {
        bytes: [0; 9],
        at: 0,
    };
    op.write_into(&mut written);
    let [opcode, value @ ..] = written.bytes;
    (opcode, u64::from_le_bytes(value))
}

/// The original has no such operation: 17 if it takes the opcode with the value 0, otherwise 4.
fn no_operation(opcode: u8, place: usize) -> Refused {
    let number = match operation(opcode, 0) {
        None => 4,
        Some(_) => 17,
    };
    Refused::new(number, Some(place), "the original has no such operation")
}

fn operations(list: &[(u8, u64)]) -> Result<Vec<Operation>, Refused> {
    list.iter()
        .enumerate()
        .map(|(place, &(opcode, value))| {
            operation(opcode, value).ok_or_else(|| no_operation(opcode, place))
        })
        .collect()
}

// BATCHES
// ================================================================================================

impl TryFrom<&Batch> for OpBatch {
    type Error = Refused;

    /// The original's batch of any parts; refused only where an operation can't be had.
    fn try_from(batch: &Batch) -> Result<Self, Refused> {
        Ok(access::batch_of(Parts {
            ops: operations(&batch.ops)?,
            starts: batch.starts,
            flags: batch.flags,
            numbers: batch.numbers,
            count: batch.count,
        }))
    }
}

impl From<&OpBatch> for Batch {
    fn from(batch: &OpBatch) -> Self {
        let Parts {
            ops,
            starts,
            flags,
            numbers,
            count,
        } = access::parts_of(batch);
        Self {
            ops: ops.iter().map(parts).collect(),
            starts,
            flags,
            numbers,
            count,
        }
    }
}

fn op_batches(batches: &[Batch]) -> Result<Vec<OpBatch>, Refused> {
    batches.iter().map(OpBatch::try_from).collect()
}

fn node(batches: &[Batch]) -> Result<BasicBlockNode, Refused> {
    Ok(access::node_of(op_batches(batches)?))
}

fn plain(batches: &[OpBatch]) -> Vec<Batch> {
    batches.iter().map(Batch::from).collect()
}

/// The batches of a list, by the original's builder of nodes (12 where it is empty).
pub fn batch(list: &[(u8, u64)]) -> Result<Vec<Batch>, Refused> {
    let ops = operations(list)?;
    match caught(|| access::build(ops))? {
        Ok(node) => Ok(plain(node.op_batches())),
        Err(error) => Err(Refused::new(12, None, format!("{error:?}"))),
    }
}

/// All operations but the flagged padding, as the original drops it.
pub fn raw_operations(batches: &[Batch]) -> Result<Vec<(u8, u64)>, Refused> {
    let node = node(batches)?;
    caught(|| node.raw_operations().map(parts).collect())
}

// BYTES
// ================================================================================================

/// The block's bytes, by the original's builder of blocks.
pub fn encode(batches: &[Batch]) -> Result<Vec<u8>, Refused> {
    let node = node(batches)?;
    caught(|| serialization::encode(&node))
}

/// The length of a block's bytes, as the original reckons it.
pub fn length(batches: &[Batch]) -> Result<usize, Refused> {
    let node = node(batches)?;
    caught(|| serialization::length(&node))
}

/// The batches of a block, and how many bytes it takes. The original's decoder does not say the
/// second: it is the length that the original reckons for the batches it has read.
pub fn decode(bytes: &[u8], offset: u32) -> Result<(Vec<Batch>, usize), Refused> {
    let batches = caught(|| serialization::decode(bytes, offset))?.map_err(Refused::decoding)?;
    let answer = plain(&batches);
    let used = caught(|| serialization::length(&access::node_of(batches)))?;
    Ok((answer, used))
}

// CHECKS
// ================================================================================================

/// The original's structure check, alone.
pub fn structure(batches: &[Batch]) -> Result<(), Refused> {
    let node = node(batches)?;
    caught(|| access::structure(&node))?.map_err(|words| Refused::check(15, words))
}

/// The original's padding check, alone.
pub fn padding(batches: &[Batch]) -> Result<(), Refused> {
    let node = node(batches)?;
    caught(|| access::padding(&node))?.map_err(|words| Refused::check(10, words))
}

/// The original's commitment check, alone.
pub fn commitment(batches: &[Batch]) -> Result<(), Refused> {
    let node = node(batches)?;
    caught(|| access::commitment(&node))?.map_err(Refused::commitment)
}

/// All of the original's checks in its own order, with the two that document 01 leaves out
/// (counts of groups; immediates at the end of a group). The refusal carries no number.
pub fn invariants(batches: &[Batch]) -> Result<(), Refused> {
    let node = node(batches)?;
    caught(|| node.validate_batch_invariants())?.map_err(Refused::invariants)
}

// TABLES AND LOOKUPS
// ================================================================================================

/// The most entries that this crate lets the original make room for.
const MOST: usize = 1 << 24;

/// Room for more entries than this can't be named: asking for it is a panic, and can be caught.
const NAMEABLE: usize = isize::MAX as usize / size_of::<usize>();

/// The original makes room for as many entries as the starts say, without a check. What lies
/// between what a machine has and what can be named would end the process: those calls are not
/// made.
fn affordable(entries: usize) -> Result<(), Refused> {
    if (MOST..=NAMEABLE).contains(&entries) {
        return Err(Refused::new(
            0,
            None,
            "not called: it would ask for too much memory",
        ));
    }
    Ok(())
}

/// The length of each group under the count.
fn lengths(batches: &[Batch]) -> impl Iterator<Item = (usize, bool)> {
    batches.iter().flat_map(|batch| {
        (0..batch.count.min(8)).map(|group| {
            (
                batch.starts[group + 1].wrapping_sub(batch.starts[group]),
                batch.flags[group],
            )
        })
    })
}

/// Both tables grow group by group, up to the first that can't be named.
fn growth(batches: &[Batch]) -> Result<(), Refused> {
    let mut total = 0usize;
    for (length, flag) in lengths(batches) {
        total = total.saturating_add(length.wrapping_sub(usize::from(flag)));
        if total > NAMEABLE {
            break;
        }
        affordable(total)?;
    }
    Ok(())
}

/// The padded table first makes room for all.
fn room(batches: &[Batch]) -> Result<(), Refused> {
    affordable(lengths(batches).fold(0, |sum, (length, _)| sum.wrapping_add(length)))?;
    growth(batches)
}

/// The original's table for raw indices.
pub fn raw_table(batches: &[Batch]) -> Result<Vec<usize>, Refused> {
    growth(batches)?;
    let batches = op_batches(batches)?;
    caught(|| RawTable::new(&batches).entries().to_vec())
}

/// The original's table for padded indices.
pub fn padded_table(batches: &[Batch]) -> Result<Vec<usize>, Refused> {
    room(batches)?;
    let batches = op_batches(batches)?;
    caught(|| PaddedTable::new(&batches).entries().to_vec())
}

/// The padded index of each raw index, by the original's table and addition. One index past the
/// last entry makes the whole call panic.
pub fn raw_to_padded(batches: &[Batch], indices: &[usize]) -> Result<Vec<usize>, Refused> {
    growth(batches)?;
    let batches = op_batches(batches)?;
    caught(|| BasicBlockNode::adjust_asm_op_indices(indices.to_vec(), &batches))
}

/// The raw index of each padded index, by the original's table and subtraction. One index past
/// the last entry makes the whole call panic.
pub fn padded_to_raw(batches: &[Batch], indices: &[usize]) -> Result<Vec<usize>, Refused> {
    room(batches)?;
    let batches = op_batches(batches)?;
    caught(|| BasicBlockNode::unadjust_asm_op_indices(indices.to_vec(), &batches))
}

/// The group of an operation in a batch and its place there.
pub fn op_idx_in_batch_to_group(
    batch: &Batch,
    index: usize,
) -> Result<Option<(usize, usize)>, Refused> {
    let batch = OpBatch::try_from(batch)?;
    caught(|| batch.op_idx_in_batch_to_group(index))
}

/// The next group of operations after one.
pub fn next_op_group_index(batch: &Batch, after: usize) -> Result<Option<usize>, Refused> {
    let batch = OpBatch::try_from(batch)?;
    caught(|| batch.next_op_group_index(after))
}
