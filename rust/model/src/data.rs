//! Operations, the table, batches, refusals and the limits.

/// The length of a batch's record.
pub const RECORD: usize = 82;

/// Operations in a list to batch.
pub const MOST_LISTED: usize = 16_384;
/// Padded operations in a block.
pub const MOST_PADDED: usize = 65_535;
/// Batches in a block.
pub const MOST_BATCHES: usize = 16_384;
/// Bytes in a byte buffer.
pub const MOST_BYTES: usize = 1_048_576;

/// Values are below this number.
pub const FIELD: u64 = 18_446_744_069_414_584_321;

/// A number of refusal and its place.
#[derive(Clone, Copy, Debug, PartialEq, Eq)]
pub struct Refusal {
    pub number: u8,
    pub place: usize,
}

pub(crate) fn refuse<T>(number: u8, place: usize) -> Result<T, Refusal> {
    Err(Refusal { number, place })
}

#[derive(Clone, Copy, Debug, PartialEq, Eq)]
pub struct Operation {
    pub code: u8,
    pub value: u64,
}

pub(crate) const NOOP: Operation = Operation { code: 0, value: 0 };

/// The operations of two runs of equal length.
pub(crate) fn operations(codes: &[u8], values: &[u64]) -> Vec<Operation> {
    let mut list = Vec::new();
    for i in 0..codes.len() {
        list.push(Operation {
            code: codes[i],
            value: values[i],
        });
    }
    list
}

/// 128 kinds, each 0 to 3, and Noop without a value.
pub fn good_table(table: &[u8]) -> bool {
    table.len() == 128 && table.iter().all(|&kind| kind <= 3) && table[0] == 0
}

/// The kind of an opcode; past the table unassigned.
pub fn kind(table: &[u8], code: u8) -> u8 {
    if code < 128 { table[code as usize] } else { 3 }
}

pub(crate) fn has_immediate(table: &[u8], op: Operation) -> bool {
    kind(table, op.code) == 1
}

/// What is wrong with an operation (M-101): 4 an opcode of 128 or more or of kind 3, 17 a value that
/// is not below the field's size, or is not 0 on kind 0. The opcode is looked at first.
fn fault(table: &[u8], op: Operation) -> Option<u8> {
    let kind = kind(table, op.code);
    if kind == 3 {
        Some(4)
    } else if op.value >= FIELD || (kind == 0 && op.value != 0) {
        Some(17)
    } else {
        None
    }
}

/// 4 or 17 for an operation; the place is its index.
pub(crate) fn admissible(table: &[u8], op: Operation, index: usize) -> Result<(), Refusal> {
    match fault(table, op) {
        Some(number) => refuse(number, index),
        None => Ok(()),
    }
}

/// 4 or 17 at the first operation that is not admissible.
pub(crate) fn all_admissible(table: &[u8], list: &[Operation]) -> Result<(), Refusal> {
    for (i, &op) in list.iter().enumerate() {
        admissible(table, op, i)?;
    }
    Ok(())
}

/// The number of a group of operations: the sum of opcode times 128^position.
pub(crate) fn number_of(group: &[Operation]) -> u64 {
    let mut sum = 0u64;
    let mut power = 1u64;
    for (position, op) in group.iter().enumerate() {
        if position > 0 {
            power *= 128;
        }
        sum += u64::from(op.code) * power;
    }
    sum
}

#[derive(Clone, Debug, Default, PartialEq, Eq)]
pub struct Batch {
    pub starts: [u8; 9],
    pub flags: [u8; 8],
    pub numbers: [u64; 8],
    pub count: u8,
}

impl Batch {
    /// The batch of a record; the run has 82 bytes.
    pub fn of_record(record: &[u8]) -> Self {
        let mut batch = Self::default();
        batch.starts.copy_from_slice(&record[..9]);
        for i in 0..8 {
            batch.flags[i] = record[9 + i];
            for byte in (0..8).rev() {
                batch.numbers[i] = batch.numbers[i] * 256 + u64::from(record[17 + 8 * i + byte]);
            }
        }
        batch.count = record[81];
        batch
    }

    pub fn record(&self) -> Vec<u8> {
        let mut record = Vec::new();
        record.extend(self.starts);
        record.extend(self.flags);
        for number in self.numbers {
            record.extend(number.to_le_bytes());
        }
        record.push(self.count);
        record
    }

    /// The operations of the batch: its ninth start.
    pub fn total(&self) -> usize {
        self.starts[8] as usize
    }

    /// The operations of a group, if starts do not fall.
    pub(crate) fn length(&self, group: usize) -> usize {
        self.starts[group + 1] as usize - self.starts[group] as usize
    }

    /// The operations of a group, out of those of the batch.
    pub(crate) fn group<'a>(&self, ops: &'a [Operation], group: usize) -> &'a [Operation] {
        &ops[self.starts[group] as usize..self.starts[group + 1] as usize]
    }
}

/// The batches of a run of whole records.
pub fn batches_of(records: &[u8]) -> Vec<Batch> {
    records.chunks_exact(RECORD).map(Batch::of_record).collect()
}

pub(crate) fn records_of(batches: &[Batch]) -> Vec<u8> {
    batches.iter().flat_map(Batch::record).collect()
}

/// An output of a lent length: its contents, then zeros.
pub(crate) fn filled<T: Clone + Default>(mut contents: Vec<T>, lent: usize) -> Vec<T> {
    contents.resize(lent, T::default());
    contents
}
