//! The original's side: a block in the original's form, and its answers in plain form.

use model::{Arena, Batch as Record, RECORD, batches_of};
use original::{Batch, Refused};

/// A block as batches that own their operations; none if the original can't be given it.
///
/// Each batch gets as many operations as its ninth start says, as far as there are; what is left
/// over goes to the last.
pub fn batches(arena: Arena<'_>) -> Option<Vec<Batch>> {
    if arena.codes.len() != arena.values.len() || !arena.records.len().is_multiple_of(RECORD) {
        return None;
    }
    let records = batches_of(arena.records);
    if records.is_empty() && !arena.codes.is_empty() {
        return None;
    }
    let mut all = Vec::with_capacity(records.len());
    let mut at = 0;
    for (i, record) in records.iter().enumerate() {
        let mut end = (at + record.total()).min(arena.codes.len());
        if i + 1 == records.len() {
            end = arena.codes.len();
        }
        let ops = (at..end)
            .map(|i| (arena.codes[i], arena.values[i]))
            .collect();
        all.push(batch(record, ops)?);
        at = end;
    }
    // What is no operation of the original can't be given to it.
    let known = |&(code, value): &(u8, u64)| original::operation(code, value).is_some();
    all.iter()
        .all(|batch| batch.ops.iter().all(known))
        .then_some(all)
}

/// One batch; none if a flag is not 0 or 1.
pub fn batch(record: &Record, ops: Vec<(u8, u64)>) -> Option<Batch> {
    if record.flags.iter().any(|&flag| flag > 1) {
        return None;
    }
    Some(Batch {
        ops,
        starts: record.starts.map(usize::from),
        flags: record.flags.map(|flag| flag == 1),
        numbers: record.numbers,
        count: usize::from(record.count),
    })
}

/// The original's batches in the form that build and decode give.
#[derive(Debug, PartialEq, Eq)]
pub struct Flat {
    pub codes: Vec<u8>,
    pub values: Vec<u64>,
    pub records: Vec<u8>,
}

pub fn flat(batches: &[Batch]) -> Flat {
    let mut flat = Flat {
        codes: Vec::new(),
        values: Vec::new(),
        records: Vec::with_capacity(batches.len() * RECORD),
    };
    for batch in batches {
        flat.codes.extend(batch.ops.iter().map(|op| op.0));
        flat.values.extend(batch.ops.iter().map(|op| op.1));
        flat.records.extend(batch.starts.map(|start| start as u8));
        flat.records.extend(batch.flags.map(u8::from));
        for number in batch.numbers {
            flat.records.extend(number.to_le_bytes());
        }
        flat.records.push(batch.count as u8);
    }
    flat
}

/// What the original did, in short.
#[derive(Clone, Copy, Debug, PartialEq, Eq, PartialOrd, Ord)]
pub enum Did {
    Answers,
    /// It refuses, and says what document 01 has this number for.
    Refuses(u8),
    Panics,
    /// The call was not made: it would ask for any amount of memory.
    NotCalled,
}

pub fn did<T>(answer: &Result<T, Refused>) -> Did {
    match answer {
        Ok(_) => Did::Answers,
        Err(refused) if refused.panicked => Did::Panics,
        Err(refused) if refused.number == 0 => Did::NotCalled,
        Err(refused) => Did::Refuses(refused.number),
    }
}
