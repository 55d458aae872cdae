//! Batches as structs, blocks, and the two kinds of index.

/// The length of a batch's record in bytes.
pub const RECORD: usize = 82;

/// The virtual machine's own table of kinds, for miden-core 0.36.3: opcode 91 has an immediate, 32,
/// 74 and 81 carry a value that is never placed.
///
/// ```
/// use oliastrofu::VM_TABLE;
/// let block = oliastrofu::build(&VM_TABLE, &[91, 32], &[5, 6])?;
/// assert_eq!(block.batches().next().unwrap().count, 2);
/// # Ok::<(), oliastrofu::Refusal>(())
/// ```
#[rustfmt::skip]
pub const VM_TABLE: [u8; 128] = [
    0, 0, 0, 0, 0, 0, 3, 0, 0, 0, 0, 0, 0, 0, 0, 0,
    0, 0, 0, 0, 0, 0, 0, 0, 0, 0, 0, 0, 0, 0, 0, 0,
    2, 0, 0, 0, 0, 0, 0, 0, 0, 0, 0, 0, 0, 0, 0, 3,
    0, 0, 0, 0, 0, 0, 0, 0, 0, 0, 0, 0, 0, 0, 0, 0,
    0, 3, 0, 3, 0, 3, 0, 3, 0, 3, 2, 3, 0, 3, 0, 3,
    0, 2, 0, 0, 3, 3, 3, 3, 3, 0, 0, 1, 3, 0, 0, 3,
    0, 3, 3, 3, 0, 3, 3, 3, 3, 3, 3, 3, 3, 3, 3, 3,
    3, 3, 3, 3, 3, 3, 3, 3, 3, 3, 3, 3, 3, 3, 3, 3,
];

/// A batch: up to eight groups of operations or immediates.
///
/// ```
/// use oliastrofu::Batch;
/// let batch = Batch {
///     starts: [0, 2, 2, 2, 2, 2, 2, 2, 2],
///     flags: [1, 0, 0, 0, 0, 0, 0, 0],
///     numbers: [1, 5, 0, 0, 0, 0, 0, 0],
///     count: 2,
/// };
/// assert_eq!(batch.operations(), 2);
/// assert_eq!(Batch::of_record(&batch.record()), batch);
/// ```
#[derive(Clone, Copy, Debug, Default, PartialEq, Eq, Hash)]
pub struct Batch {
    /// Group i is the operations from start i up to start i+1, counted within the batch.
    pub starts: [u8; 9],
    /// As they were read: 1 where the last operation of a group under the count is padding
    /// ([`paddings`](Self::paddings)). Those at and above the count are kept unread, written back
    /// as they are, and no padding ([`kept`](Self::kept)); a batch that was built has none.
    pub flags: [u8; 8],
    /// The opcodes of a group as one number, or the value of an immediate.
    pub numbers: [u64; 8],
    /// How many groups there are.
    pub count: u8,
}

impl Batch {
    /// The batch of a record: nine starts, eight flags, eight numbers of eight bytes each,
    /// little-endian, the count. Every record is one of a batch; the structure check says whether
    /// it holds.
    pub fn of_record(record: &[u8; RECORD]) -> Self {
        let mut bytes = record.iter().copied();
        let mut next = || bytes.next().unwrap_or(0);
        Self {
            starts: core::array::from_fn(|_| next()),
            flags: core::array::from_fn(|_| next()),
            numbers: core::array::from_fn(|_| u64::from_le_bytes(core::array::from_fn(|_| next()))),
            count: next(),
        }
    }

    /// The record of the batch.
    pub fn record(&self) -> [u8; RECORD] {
        let mut bytes = (self.starts.iter().copied())
            .chain(self.flags)
            .chain(self.numbers.into_iter().flat_map(u64::to_le_bytes))
            .chain([self.count]);
        core::array::from_fn(|_| bytes.next().unwrap_or(0))
    }

    /// How many operations the batch has, padding included: its ninth start.
    pub fn operations(&self) -> usize {
        let [.., last] = self.starts;
        usize::from(last)
    }

    /// The groups under the count whose flag is set: each ends in a padding Noop, if the padding
    /// check passes.
    ///
    /// ```
    /// use oliastrofu::VM_TABLE;
    /// let block = oliastrofu::build(&VM_TABLE, &[91], &[5])?;
    /// assert_eq!(block.codes, [91, 0]);
    /// let batch = block.batches().next().unwrap();
    /// assert!(batch.paddings().eq([0]));
    /// # Ok::<(), oliastrofu::Refusal>(())
    /// ```
    pub fn paddings(&self) -> impl Iterator<Item = usize> + use<> {
        let count = usize::from(self.count);
        self.flagged().take_while(move |&group| group < count)
    }

    /// The groups at or above the count whose flag is set: kept as read, written back, no padding.
    ///
    /// ```
    /// use oliastrofu::VM_TABLE;
    /// // One operation, in group 0; flags 1 and 7 are set.
    /// let bytes = [3, 2, 1, 0, 0, 0, 1, 0, 0, 0, 0b1000_0010];
    /// let (block, _) = oliastrofu::decode(&VM_TABLE, &bytes, 0)?;
    /// let batch = block.batches().next().unwrap();
    /// assert!(batch.kept().eq([1, 7]));
    /// assert_eq!(batch.paddings().next(), None);
    /// assert_eq!(oliastrofu::encode(&VM_TABLE, &block)?, bytes);
    /// # Ok::<(), oliastrofu::Refusal>(())
    /// ```
    pub fn kept(&self) -> impl Iterator<Item = usize> + use<> {
        let count = usize::from(self.count);
        self.flagged().skip_while(move |&group| group < count)
    }

    fn flagged(&self) -> impl Iterator<Item = usize> + use<> {
        let flags = self.flags.into_iter().enumerate();
        flags.filter(|&(_, flag)| flag != 0).map(|(group, _)| group)
    }
}

/// A block's operations and records, as they are lent.
///
/// ```
/// use oliastrofu::{Arena, lent};
/// let nothing = Arena { codes: &[], values: &[], records: &[] };
/// assert_eq!(lent::structure(nothing), Ok(()));
/// ```
#[derive(Clone, Copy, Debug, Default, PartialEq, Eq)]
pub struct Arena<'a> {
    /// The opcodes, padding included.
    pub codes: &'a [u8],
    /// The values, one for each opcode.
    pub values: &'a [u64],
    /// The batches, as records of 82 bytes.
    pub records: &'a [u8],
}

/// A block: its padded operations and its batches.
///
/// ```
/// use oliastrofu::{Batch, Block};
/// let block = Block::new(vec![], vec![], &[Batch::default()]);
/// assert_eq!(block.batches().count(), 1);
/// ```
#[derive(Clone, Debug, Default, PartialEq, Eq, Hash)]
pub struct Block {
    /// The opcodes, padding included.
    pub codes: Vec<u8>,
    /// The values, one for each opcode.
    pub values: Vec<u64>,
    /// The batches, as records of 82 bytes.
    pub records: Vec<u8>,
}

impl Block {
    /// A block of any parts; the checks say whether they belong together.
    pub fn new(codes: Vec<u8>, values: Vec<u64>, batches: &[Batch]) -> Self {
        Self {
            codes,
            values,
            records: batches.iter().flat_map(Batch::record).collect(),
        }
    }

    /// The batches in order. Bytes after the last whole record are left out.
    pub fn batches(&self) -> impl ExactSizeIterator<Item = Batch> + '_ {
        let (records, _) = self.records.as_chunks::<RECORD>();
        records.iter().map(Batch::of_record)
    }

    /// The block, lent.
    pub fn arena(&self) -> Arena<'_> {
        Arena {
            codes: &self.codes,
            values: &self.values,
            records: &self.records,
        }
    }
}

/// The index of an operation in the list that was batched, without padding.
#[derive(Clone, Copy, Debug, PartialEq, Eq, PartialOrd, Ord, Hash)]
pub struct RawIndex(pub usize);

/// The index of an operation in the block, padding included.
#[derive(Clone, Copy, Debug, PartialEq, Eq, PartialOrd, Ord, Hash)]
pub struct PaddedIndex(pub usize);

/// For each raw operation, how many paddings come before it; then how many there are.
#[derive(Clone, Debug, Default, PartialEq, Eq, Hash)]
pub struct RawTable(pub Vec<u64>);

/// For each padded operation, how many paddings come before it; then how many there are.
#[derive(Clone, Debug, Default, PartialEq, Eq, Hash)]
pub struct PaddedTable(pub Vec<u64>);
