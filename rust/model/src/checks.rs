//! The three checks (document 01, "Checks").

use crate::{
    call::{Answer, Arena},
    data::{
        Batch, MOST_BATCHES, MOST_PADDED, Operation, RECORD, Refusal, all_admissible, batches_of,
        good_table, has_immediate, number_of, operations, refuse,
    },
};

/// 3: equal lengths, whole records, and the limits of a block.
pub(crate) fn within(arena: Arena<'_>) -> Result<(), Refusal> {
    if arena.codes.len() != arena.values.len()
        || !arena.records.len().is_multiple_of(RECORD)
        || arena.codes.len() > MOST_PADDED
        || arena.records.len() / RECORD > MOST_BATCHES
    {
        return refuse(3, 0);
    }
    Ok(())
}

/// The structure check's test of one record.
pub fn record_holds(batch: &Batch) -> bool {
    let starts = batch.starts;
    batch.count <= 8
        && batch.flags.iter().all(|&flag| flag <= 1)
        && starts[0] == 0
        && (0..8).all(|i| starts[i] <= starts[i + 1])
        && (0..8).all(|i| starts[i + 1] - starts[i] <= 9)
        && starts[batch.count as usize] == starts[8]
}

/// 15: the first record that does not hold; the number of records if only the sum is wrong.
pub(crate) fn structured(arena: Arena<'_>) -> Result<(), Refusal> {
    let batches = batches_of(arena.records);
    for (i, batch) in batches.iter().enumerate() {
        if !record_holds(batch) {
            return refuse(15, i);
        }
    }
    let sum: usize = batches.iter().map(Batch::total).sum();
    if sum != arena.codes.len() {
        return refuse(15, batches.len());
    }
    Ok(())
}

/// Each batch with its own operations; the structure check has passed.
pub(crate) fn parts(arena: Arena<'_>) -> Vec<(Batch, Vec<Operation>)> {
    let ops = operations(arena.codes, arena.values);
    let mut parts = Vec::new();
    let mut at = 0;
    for batch in batches_of(arena.records) {
        let end = at + batch.total();
        parts.push((batch, ops[at..end].to_vec()));
        at = end;
    }
    parts
}

/// The padding check's test of one batch. Flags at or above the count are not looked at (M-100).
pub(crate) fn padding_holds(batch: &Batch, ops: &[Operation]) -> bool {
    (0..batch.count as usize).all(|group| {
        if batch.flags[group] == 0 {
            true
        } else {
            match batch.group(ops, group).last() {
                None => false,
                Some(last) => last.code == 0,
            }
        }
    })
}

/// 10: the first batch that fails the padding check.
pub(crate) fn padded(arena: Arena<'_>) -> Result<(), Refusal> {
    for (i, (batch, ops)) in parts(arena).iter().enumerate() {
        if !padding_holds(batch, ops) {
            return refuse(10, i);
        }
    }
    Ok(())
}

/// The slots of a group's immediates with their values, or 8 or 9 for the first that can't be
/// taken. A slot is under `bound`.
pub(crate) fn slots(
    table: &[u8],
    batch: &Batch,
    ops: &[Operation],
    group: usize,
    bound: usize,
) -> Result<Vec<(usize, u64)>, u8> {
    let mut taken = Vec::new();
    for &op in batch.group(ops, group) {
        if has_immediate(table, op) {
            let slot = group + 1 + taken.len();
            if slot >= 8 || slot >= bound {
                return Err(8);
            }
            if batch.length(slot) > 0 {
                return Err(9);
            }
            taken.push((slot, op.value));
        }
    }
    Ok(taken)
}

/// The commitment check's test of one batch: the number of its first fault.
fn committed(table: &[u8], batch: &Batch, ops: &[Operation]) -> Result<(), u8> {
    let count = batch.count as usize;
    let mut immediates = Vec::new();
    for group in 0..count {
        if batch.length(group) == 0 {
            continue;
        }
        if batch.numbers[group] != number_of(batch.group(ops, group)) {
            return Err(16);
        }
        let taken = slots(table, batch, ops, group, count)?;
        for &(slot, value) in &taken {
            if batch.numbers[slot] != value {
                return Err(16);
            }
        }
        immediates.extend(taken.iter().map(|&(slot, _)| slot));
    }
    for group in 0..count {
        let empty = batch.length(group) == 0;
        if empty && !immediates.contains(&group) && batch.numbers[group] != 0 {
            return Err(16);
        }
    }
    Ok(())
}

fn commitment_tried(table: &[u8], arena: Arena<'_>) -> Result<(), Refusal> {
    within(arena)?;
    if !good_table(table) {
        return refuse(14, 0);
    }
    structured(arena)?;
    all_admissible(table, &operations(arena.codes, arena.values))?;
    for (i, (batch, ops)) in parts(arena).iter().enumerate() {
        if let Err(number) = committed(table, batch, ops) {
            return refuse(number, i);
        }
    }
    Ok(())
}

fn checked(result: Result<(), Refusal>) -> Answer {
    match result {
        Ok(()) => Answer::default(),
        Err(refusal) => Answer::refused(refusal),
    }
}

/// The structure check.
pub fn structure(arena: Arena<'_>) -> Answer {
    checked(within(arena).and_then(|()| structured(arena)))
}

/// The padding check.
pub fn padding(arena: Arena<'_>) -> Answer {
    checked(
        within(arena)
            .and_then(|()| structured(arena))
            .and_then(|()| padded(arena)),
    )
}

/// The commitment check.
pub fn commitment(table: &[u8], arena: Arena<'_>) -> Answer {
    checked(commitment_tried(table, arena))
}
