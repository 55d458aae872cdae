//! Block bytes: the encoder and the decoder (document 01, "Block bytes"), and the strict decoder (M-107).

use crate::{
    batching::{batched, with_outputs},
    call::{Answer, Arena, Room},
    checks::{padding_holds, slots, structured, within},
    data::{
        Batch, MOST_BATCHES, MOST_BYTES, MOST_LISTED, MOST_PADDED, Operation, RECORD, Refusal,
        admissible, all_admissible, batches_of, good_table, kind, number_of, operations, refuse,
    },
};

/// A count in its shortest form; at most 65,535.
pub fn count_bytes(count: usize) -> Vec<u8> {
    let zeros = if count < 128 {
        0
    } else if count < 16_384 {
        1
    } else {
        2
    };
    // The number above a one and the zeros.
    let word = ((count * 2 + 1) << zeros) as u32;
    word.to_le_bytes()[..zeros + 1].to_vec()
}

/// A count and the bytes it takes, or 2 or 3.
pub fn read_count(bytes: &[u8], at: usize) -> Result<(usize, usize), Refusal> {
    if at >= bytes.len() {
        return refuse(2, at);
    }
    let zeros = bytes[at].trailing_zeros() as usize;
    if zeros > 2 {
        return refuse(3, 0);
    }
    let length = zeros + 1;
    if bytes.len() - at < length {
        return refuse(2, at);
    }
    let mut number = 0;
    for i in (0..length).rev() {
        number = number * 256 + bytes[at + i] as usize;
    }
    let count = number >> length;
    if count > MOST_PADDED || count_bytes(count).len() != length {
        return refuse(3, 0);
    }
    Ok((count, length))
}

/// The bytes of a block; the limits hold and the structure check has passed.
fn block(table: &[u8], list: &[Operation], batches: &[Batch]) -> Vec<u8> {
    let mut bytes = count_bytes(list.len());
    for op in list {
        bytes.push(op.code);
        if kind(table, op.code) != 0 {
            bytes.extend(op.value.to_le_bytes());
        }
    }
    bytes.extend((batches.len() as u32).to_le_bytes());
    for batch in batches {
        for pair in 0..4 {
            let low = batch.length(2 * pair);
            let high = batch.length(2 * pair + 1);
            bytes.push((low + 16 * high) as u8);
        }
    }
    for batch in batches {
        let mut byte = 0;
        for group in 0..8 {
            if batch.flags[group] == 1 {
                byte += 1 << group;
            }
        }
        bytes.push(byte);
    }
    bytes
}

fn encode_tried(
    table: &[u8],
    arena: Arena<'_>,
    lent: usize,
    at: usize,
) -> Result<Vec<u8>, Refusal> {
    within(arena)?;
    if lent > MOST_BYTES {
        return refuse(3, 0);
    }
    if !good_table(table) {
        return refuse(14, 0);
    }
    if at > lent {
        return refuse(1, 0);
    }
    structured(arena)?;
    let list = operations(arena.codes, arena.values);
    all_admissible(table, &list)?;
    let bytes = block(table, &list, &batches_of(arena.records));
    if lent - at < bytes.len() {
        return refuse(13, 0);
    }
    Ok(bytes)
}

/// Writes a block into the buffer, from a position on.
pub fn encode(table: &[u8], arena: Arena<'_>, buffer: &[u8], at: usize) -> Answer {
    match encode_tried(table, arena, buffer.len(), at) {
        Err(refusal) => Answer {
            buffer: buffer.to_vec(),
            ..Answer::refused(refusal)
        },
        Ok(bytes) => {
            let mut after = buffer[..at].to_vec();
            after.extend(&bytes);
            after.extend(&buffer[at + bytes.len()..]);
            Answer {
                rest: [bytes.len(), 0, 0],
                buffer: after,
                ..Answer::default()
            }
        }
    }
}

/// An operation and the bytes it takes, or 2, 4 or 17. "Opcode is looked at first, then missing bytes
/// (2), then 17" (M-101).
pub fn read_operation(
    table: &[u8],
    bytes: &[u8],
    at: usize,
    index: usize,
) -> Result<(Operation, usize), Refusal> {
    if at >= bytes.len() {
        return refuse(2, at);
    }
    // With the value 0 only its opcode can be at fault.
    let mut op = Operation {
        code: bytes[at],
        value: 0,
    };
    admissible(table, op, index)?;
    if kind(table, op.code) == 0 {
        return Ok((op, 1));
    }
    if bytes.len() - at < 9 {
        return refuse(2, at);
    }
    for i in (1..9).rev() {
        op.value = op.value * 256 + u64::from(bytes[at + i]);
    }
    admissible(table, op, index)?;
    Ok((op, 9))
}

/// The numbers and the count of a batch whose starts and flags are read.
fn worked_out(table: &[u8], batch: &mut Batch, ops: &[Operation]) -> Result<(), u8> {
    for group in 0..8 {
        if batch.length(group) == 0 {
            continue;
        }
        batch.numbers[group] = number_of(batch.group(ops, group));
        let taken = slots(table, batch, ops, group, 8)?;
        for &(slot, value) in &taken {
            batch.numbers[slot] = value;
        }
        // This is the last non-empty group so far.
        batch.count = (group + 1 + taken.len()) as u8;
    }
    if !padding_holds(batch, ops) {
        return Err(10);
    }
    Ok(())
}

/// The operations, the batch count, and the place after it.
type Head = (Vec<Operation>, usize, usize);

/// Decode's order up to the batch count: 3 (buffer), 14, 1, count, operations, batch count.
fn head_tried(table: &[u8], bytes: &[u8], at: usize, room: Room) -> Result<Head, Refusal> {
    if bytes.len() > MOST_BYTES {
        return refuse(3, 0);
    }
    if !good_table(table) {
        return refuse(14, 0);
    }
    if at > bytes.len() {
        return refuse(1, 0);
    }

    let mut here = at;
    let (count, length) = read_count(bytes, here)?;
    here += length;
    if room.codes < count || room.values < count {
        return refuse(13, 0);
    }

    let mut list = Vec::new();
    for index in 0..count {
        let (op, length) = read_operation(table, bytes, here, index)?;
        list.push(op);
        here += length;
    }

    if bytes.len() - here < 4 {
        return refuse(2, here);
    }
    let mut total = 0;
    for i in (0..4).rev() {
        total = total * 256 + bytes[here + i] as usize;
    }
    here += 4;
    if total > (bytes.len() - here) / 5 {
        return refuse(5, 0);
    }
    if total > MOST_BATCHES {
        return refuse(3, 0);
    }
    if room.records / RECORD < total {
        return refuse(13, 0);
    }
    Ok((list, total, here))
}

/// How many batches and operations the block at a place has, whatever the room.
pub fn head(table: &[u8], bytes: &[u8], at: usize) -> Result<(usize, usize), Refusal> {
    let room = Room {
        codes: MOST_PADDED,
        values: MOST_PADDED,
        records: MOST_BATCHES * RECORD,
    };
    let (list, total, _) = head_tried(table, bytes, at, room)?;
    Ok((total, list.len()))
}

/// Operations, batches and bytes used.
pub(crate) type Read = (Vec<Operation>, Vec<Batch>, usize);

pub(crate) fn decode_tried(
    table: &[u8],
    bytes: &[u8],
    at: usize,
    room: Room,
) -> Result<Read, Refusal> {
    let (list, total, mut here) = head_tried(table, bytes, at, room)?;

    let mut batches = Vec::new();
    for i in 0..total {
        let mut batch = Batch::default();
        let mut sum = 0;
        for group in 0..8 {
            let byte = bytes[here + group / 2];
            let nibble = if group % 2 == 0 { byte % 16 } else { byte / 16 };
            if nibble > 9 {
                return refuse(6, i);
            }
            sum += nibble;
            batch.starts[group + 1] = sum;
        }
        here += 4;
        batches.push(batch);
    }
    for batch in &mut batches {
        for group in 0..8 {
            batch.flags[group] = bytes[here] / (1 << group) % 2;
        }
        here += 1;
    }

    let mut covered = 0;
    for (i, batch) in batches.iter_mut().enumerate() {
        let end = covered + batch.total();
        if end > list.len() {
            return refuse(7, i);
        }
        if let Err(number) = worked_out(table, batch, &list[covered..end]) {
            return refuse(number, i);
        }
        covered = end;
    }
    if covered < list.len() {
        return refuse(11, 0);
    }
    Ok((list, batches, here - at))
}

/// Reads a block from a place in the buffer on.
pub fn decode(table: &[u8], bytes: &[u8], at: usize, room: Room) -> Answer {
    match decode_tried(table, bytes, at, room) {
        Err(refusal) => with_outputs(Err(refusal), 0, room),
        Ok((list, batches, used)) => with_outputs(Ok((list, batches)), used, room),
    }
}

/// "The block's own list, flagged padding dropped" (M-107): the last operation of a group under the
/// count whose flag is set is no operation of the list. The padding check has passed.
pub fn own_list(list: &[Operation], batches: &[Batch]) -> Vec<Operation> {
    let mut own = Vec::new();
    for (batch, ops) in parted(list, batches) {
        for group in 0..batch.count as usize {
            let mut ops = batch.group(&ops, group).to_vec();
            if batch.flags[group] == 1 {
                ops.pop();
            }
            own.extend(ops);
        }
    }
    own
}

/// Each batch with its own operations.
fn parted(list: &[Operation], batches: &[Batch]) -> Vec<(Batch, Vec<Operation>)> {
    let mut parts = Vec::new();
    let mut at = 0;
    for batch in batches {
        let end = at + batch.total();
        parts.push((batch.clone(), list[at..end].to_vec()));
        at = end;
    }
    parts
}

/// Strict reading (M-107): "a block the decoder takes passes exactly if some non-empty list of at most
/// 16,384 admissible operations, batched by document 01, writes those very bytes". What is batched can
/// be read, and without its padding it is the list again: so that list is the block's own or none.
fn strict_tried(table: &[u8], bytes: &[u8], at: usize, room: Room) -> Result<Read, Refusal> {
    let (list, batches, used) = decode_tried(table, bytes, at, room)?;
    let own = own_list(&list, &batches);
    if own.is_empty() || own.len() > MOST_LISTED {
        return refuse(18, 0);
    }
    let (made_list, made_batches) = batched(table, &own);
    if block(table, &made_list, &made_batches) == bytes[at..at + used] {
        return Ok((list, batches, used));
    }
    let ours = parted(&list, &batches);
    let made = parted(&made_list, &made_batches);
    for i in 0..ours.len().max(made.len()) {
        if ours.get(i) != made.get(i) {
            return refuse(18, i);
        }
    }
    unreachable!("other bytes are those of other batches")
}

/// Reads a block from a place in the buffer on, if it is one that batching makes.
pub fn decode_strict(table: &[u8], bytes: &[u8], at: usize, room: Room) -> Answer {
    match strict_tried(table, bytes, at, room) {
        Err(refusal) => with_outputs(Err(refusal), 0, room),
        Ok((list, batches, used)) => with_outputs(Ok((list, batches)), used, room),
    }
}
