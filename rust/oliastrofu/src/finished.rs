//! Blocks that were read strictly.

use core::ops::Deref;

use crate::{
    Arena, Batch, Block, RECORD, le,
    lent::{Decoded, Outputs},
};

/// A finished block: one that batching makes. It can only be had from strict reading, and not be
/// changed: who is given one needs no further check of its batches, under the table that it was
/// read with. Whose list it is, it does not say.
///
/// Under that table [`build`](crate::build) of its own list is the block, and
/// [`encode`](crate::encode) of that its very bytes. All checks pass, all flags stand for padding,
/// and no group or batch is empty without need.
///
/// [`decode_strict`](crate::decode_strict) gives one that owns its [`Block`]; those of
/// [`lent`](crate::lent::decode_strict) and [`le`](crate::le::decode_strict) give one that has it
/// lent. The block is had by `*`, and by the functions that take one.
///
/// ```
/// use oliastrofu::{Finished, Refusal, VM_TABLE};
///
/// // Takes only what was read strictly.
/// fn prove(block: &Finished) -> Result<usize, Refusal> {
///     let table = oliastrofu::padded_table(block)?;
///     assert_eq!(table.0.len(), block.codes.len() + 1);
///     Ok(block.listed())
/// }
///
/// let block = oliastrofu::build(&VM_TABLE, &[91, 1], &[5, 0])?;
/// let bytes = oliastrofu::encode(&VM_TABLE, &block)?;
/// let finished = oliastrofu::decode_strict(&VM_TABLE, &bytes, 0)?;
/// assert_eq!(prove(&finished), Ok(2));
/// assert_eq!(finished.used(), bytes.len());
/// assert_eq!(finished.into_block(), block);
/// # Ok::<(), oliastrofu::Refusal>(())
/// ```
///
/// A block that was read without strictness, or made by hand, is none:
///
/// ```compile_fail,E0308
/// use oliastrofu::{Block, Finished};
/// fn prove(_: &Finished) {}
/// prove(&Block::default());
/// ```
///
/// ```compile_fail,E0451
/// use oliastrofu::{Block, Finished};
/// let made = Finished { block: Block::default(), used: 0 };
/// ```
///
/// ```compile_fail,E0277
/// let made: oliastrofu::Finished = Default::default();
/// ```
///
/// ```compile_fail,E0308
/// use oliastrofu::{Block, Finished};
/// let made = Finished::from(Block::default());
/// ```
///
/// Nor is a finished one changed afterwards:
///
/// ```compile_fail,E0596
/// # let bytes = [3, 1, 1, 0, 0, 0, 1, 0, 0, 0, 0];
/// let mut finished = oliastrofu::decode_strict(&oliastrofu::VM_TABLE, &bytes, 0).unwrap();
/// finished.codes.push(1);
/// ```
///
/// ```compile_fail,E0616
/// # let bytes = [3, 1, 1, 0, 0, 0, 1, 0, 0, 0, 0];
/// let mut finished = oliastrofu::decode_strict(&oliastrofu::VM_TABLE, &bytes, 0).unwrap();
/// finished.block = oliastrofu::Block::default();
/// ```
#[derive(Clone, Copy, Debug, PartialEq, Eq, Hash)]
pub struct Finished<B = Block> {
    block: B,
    used: usize,
}

impl<B> Finished<B> {
    /// The block. `*` gives it, too.
    ///
    /// ```
    /// let bytes = [3, 1, 1, 0, 0, 0, 1, 0, 0, 0, 0];
    /// let finished = oliastrofu::decode_strict(&oliastrofu::VM_TABLE, &bytes, 0)?;
    /// assert_eq!(finished.block().codes, [1]);
    /// assert_eq!(finished.codes, [1]);
    /// # Ok::<(), oliastrofu::Refusal>(())
    /// ```
    pub const fn block(&self) -> &B {
        &self.block
    }

    /// The block, and no longer a promise about it.
    pub fn into_block(self) -> B {
        self.block
    }

    /// The bytes of the block.
    pub const fn used(&self) -> usize {
        self.used
    }
}

impl Finished {
    pub(crate) const fn owned(block: Block, used: usize) -> Self {
        Self { block, used }
    }

    /// How many operations its own list has: those of the block without padding.
    ///
    /// ```
    /// // An immediate and its padding.
    /// let bytes = [5, 91, 5, 0, 0, 0, 0, 0, 0, 0, 0, 1, 0, 0, 0, 2, 0, 0, 0, 1];
    /// let finished = oliastrofu::decode_strict(&oliastrofu::VM_TABLE, &bytes, 0)?;
    /// assert_eq!((finished.codes.len(), finished.listed()), (2, 1));
    /// # Ok::<(), oliastrofu::Refusal>(())
    /// ```
    pub fn listed(&self) -> usize {
        listed(self.block.codes.len(), &self.block.records)
    }

    /// Its own list, as [`build`](crate::build) takes it: opcodes and values.
    ///
    /// ```
    /// use oliastrofu::VM_TABLE;
    /// let bytes = [5, 91, 5, 0, 0, 0, 0, 0, 0, 0, 0, 1, 0, 0, 0, 2, 0, 0, 0, 1];
    /// let finished = oliastrofu::decode_strict(&VM_TABLE, &bytes, 0)?;
    /// let (codes, values) = finished.list();
    /// assert_eq!((&codes[..], &values[..]), (&[91][..], &[5][..]));
    /// let block = oliastrofu::build(&VM_TABLE, &codes, &values)?;
    /// assert_eq!(oliastrofu::encode(&VM_TABLE, &block)?, bytes);
    /// # Ok::<(), oliastrofu::Refusal>(())
    /// ```
    pub fn list(&self) -> (Vec<u8>, Vec<u64>) {
        let Block { codes, values, .. } = &self.block;
        let mut operations = codes.iter().copied().zip(values.iter().copied());
        let listed = self.listed();
        let mut list = (Vec::with_capacity(listed), Vec::with_capacity(listed));
        for batch in self.block.batches() {
            let ends = batch.starts.iter().skip(1);
            for ((start, end), &flag) in batch.starts.iter().zip(ends).zip(&batch.flags) {
                let length = end.saturating_sub(*start);
                let own = length.saturating_sub(flag);
                list.extend(operations.by_ref().take(own.into()));
                // The padding.
                operations.by_ref().take(flag.into()).for_each(drop);
            }
        }
        list
    }

    /// The same, lent.
    ///
    /// ```
    /// use oliastrofu::{Arena, Finished};
    /// fn prove(block: Finished<Arena<'_>>) -> usize {
    ///     block.listed()
    /// }
    /// let bytes = [3, 1, 1, 0, 0, 0, 1, 0, 0, 0, 0];
    /// let finished = oliastrofu::decode_strict(&oliastrofu::VM_TABLE, &bytes, 0)?;
    /// assert_eq!(prove(finished.lent()), 1);
    /// # Ok::<(), oliastrofu::Refusal>(())
    /// ```
    pub fn lent(&self) -> Finished<Arena<'_>> {
        Finished {
            block: self.block.arena(),
            used: self.used,
        }
    }
}

impl<'a> Finished<Arena<'a>> {
    /// The front of what was filled.
    pub(crate) fn in_front(read: Decoded, out: Outputs<'a>) -> Self {
        let block = Arena {
            codes: front(out.codes, read.operations),
            values: front(out.values, read.operations),
            records: front(out.records, read.batches.saturating_mul(RECORD)),
        };
        Self {
            block,
            used: read.used,
        }
    }

    /// How many operations its own list has: those of the block without padding.
    pub fn listed(&self) -> usize {
        listed(self.block.codes.len(), self.block.records)
    }
}

impl<'a> Finished<le::Arena<'a>> {
    /// The front of what was filled.
    pub(crate) fn in_front(read: Decoded, out: le::Outputs<'a>) -> Self {
        let block = le::Arena {
            codes: front(out.codes, read.operations),
            values: front(out.values, read.operations.saturating_mul(8)),
            records: front(out.records, read.batches.saturating_mul(RECORD)),
        };
        Self {
            block,
            used: read.used,
        }
    }

    /// How many operations its own list has: those of the block without padding.
    pub fn listed(&self) -> usize {
        listed(self.block.codes.len(), self.block.records)
    }
}

impl<B> Deref for Finished<B> {
    type Target = B;

    fn deref(&self) -> &B {
        &self.block
    }
}

impl From<Finished> for Block {
    fn from(finished: Finished) -> Self {
        finished.block
    }
}

/// A reply's lengths are not over those that were lent.
fn front<T>(run: &mut [T], length: usize) -> &[T] {
    run.get(..length).unwrap_or_default()
}

fn listed(operations: usize, records: &[u8]) -> usize {
    let (records, _) = records.as_chunks::<RECORD>();
    let paddings = records
        .iter()
        .map(|record| Batch::of_record(record).paddings().count());
    operations.saturating_sub(paddings.sum())
}
