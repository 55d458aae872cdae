//! Lookups in one batch, the two index tables and the lookups in them (document 01, "Lookups and
//! tables").

use crate::{
    call::{Answer, Arena},
    checks::{padded, parts, record_holds, structured, within},
    data::{Batch, RECORD, Refusal, filled, refuse},
};

/// For each padded operation in order: is it flagged padding?
fn paddings(arena: Arena<'_>) -> Vec<bool> {
    let mut all = Vec::new();
    for (batch, _) in parts(arena) {
        for group in 0..8 {
            let length = batch.length(group);
            for position in 0..length {
                all.push(batch.flags[group] == 1 && position + 1 == length);
            }
        }
    }
    all
}

fn table_tried(arena: Arena<'_>, room: usize, raw: bool) -> Result<Vec<u64>, Refusal> {
    within(arena)?;
    structured(arena)?;
    padded(arena)?;
    let mut entries = Vec::new();
    let mut before = 0;
    for padding in paddings(arena) {
        if !(raw && padding) {
            entries.push(before);
        }
        if padding {
            before += 1;
        }
    }
    entries.push(before);
    if room < entries.len() {
        return refuse(13, 0);
    }
    Ok(entries)
}

fn table(arena: Arena<'_>, room: usize, raw: bool) -> Answer {
    match table_tried(arena, room, raw) {
        Err(refusal) => Answer {
            entries: vec![0; room],
            ..Answer::refused(refusal)
        },
        Ok(entries) => Answer {
            rest: [entries.len(), 0, 0],
            entries: filled(entries, room),
            ..Answer::default()
        },
    }
}

/// The table for raw indices.
pub fn raw_table(arena: Arena<'_>, room: usize) -> Answer {
    table(arena, room, true)
}

/// The table for padded indices.
pub fn padded_table(arena: Arena<'_>, room: usize) -> Answer {
    table(arena, room, false)
}

fn found(numbers: Option<(usize, usize)>) -> Answer {
    match numbers {
        None => Answer::default(),
        Some((first, second)) => Answer {
            rest: [1, first, second],
            ..Answer::default()
        },
    }
}

/// The padded index of a raw index.
pub fn padded_index(table: &[u64], raw: usize) -> Answer {
    if raw >= table.len() {
        return found(None);
    }
    let sum = raw as u128 + u128::from(table[raw]);
    if sum > u128::from(u64::MAX) {
        return found(None);
    }
    found(Some((sum as usize, 0)))
}

/// The raw index of a padded index.
pub fn raw_index(table: &[u64], padded: usize) -> Answer {
    if padded >= table.len() || table[padded] > padded as u64 {
        return found(None);
    }
    found(Some((padded - table[padded] as usize, 0)))
}

/// The batch of one record: 3 if the run is not one record, 15 if it does not hold.
fn one(record: &[u8]) -> Result<Batch, Refusal> {
    if record.len() != RECORD {
        return refuse(3, 0);
    }
    let batch = Batch::of_record(record);
    if !record_holds(&batch) {
        return refuse(15, 0);
    }
    Ok(batch)
}

/// The group of an operation of a batch, and its place there.
pub fn group(record: &[u8], index: usize) -> Answer {
    let batch = match one(record) {
        Ok(batch) => batch,
        Err(refusal) => return Answer::refused(refusal),
    };
    for group in 0..8 {
        if batch.starts[group + 1] as usize > index {
            return found(Some((group, index - batch.starts[group] as usize)));
        }
    }
    found(None)
}

/// The next group of operations after one.
pub fn next_group(record: &[u8], group: usize) -> Answer {
    let batch = match one(record) {
        Ok(batch) => batch,
        Err(refusal) => return Answer::refused(refusal),
    };
    for next in 0..batch.count as usize {
        if next > group && batch.length(next) > 0 {
            return found(Some((next, 0)));
        }
    }
    found(None)
}
