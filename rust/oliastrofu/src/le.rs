//! The functions of [`lent`](crate::lent) with runs of 64-bit numbers as little-endian bytes, eight
//! to a number: only numbers and byte slices.
//!
//! An input that is not whole numbers is refused with 3, and an index lookup in one finds nothing.
//! Of an output only whole numbers are room; bytes left over are zeroed too.
//!
//! Numbers go through work space on the stack, as much of it as their number asks for. In
//! [`encode`], [`decode`], [`decode_strict`] and [`commitment`] 20 KiB are enough for at most 64
//! numbers, 36 KiB for at most 2,048, and 532 KiB for any number; in [`build`] and the tables, which
//! read and fill numbers, twice as much. [`structure`], [`padding`] and the index lookups want none.

use crate::{
    Finished, PaddedIndex, RawIndex, Refusal,
    boundary::le as boundary,
    lent::{Built, Decoded, built, checked, decoded, encoded, index, tabled},
};

/// A block's operations and records, as they are lent.
#[derive(Clone, Copy, Debug, PartialEq, Eq)]
pub struct Arena<'a> {
    pub codes: &'a [u8],
    /// Values, eight bytes each.
    pub values: &'a [u8],
    pub records: &'a [u8],
}

/// The runs that build and decode fill.
#[derive(Debug)]
pub struct Outputs<'a> {
    pub codes: &'a mut [u8],
    /// Values, eight bytes each.
    pub values: &'a mut [u8],
    pub records: &'a mut [u8],
}

/// Batches a list of operations under a table of kinds.
///
/// ```
/// use oliastrofu::{lent::Built, le::{self, Outputs}};
/// let mut table = [3; 128];
/// table[..4].copy_from_slice(&[0, 1, 0, 2]);
/// let (mut codes, mut values, mut records) = ([9; 2], [9; 17], [9; 82]);
/// let out = Outputs { codes: &mut codes, values: &mut values, records: &mut records };
/// let built = le::build(&table, &[1], &[5, 0, 0, 0, 0, 0, 0, 0], out)?;
/// assert_eq!(built, Built { batches: 1, operations: 2 });
/// assert_eq!((codes, values), ([1, 0], [5, 0, 0, 0, 0, 0, 0, 0, 0, 0, 0, 0, 0, 0, 0, 0, 0]));
/// # Ok::<(), oliastrofu::Refusal>(())
/// ```
pub fn build(
    table: &[u8],
    codes: &[u8],
    values: &[u8],
    out: Outputs<'_>,
) -> Result<Built, Refusal> {
    built(boundary::build(
        table,
        codes,
        values,
        out.codes,
        out.values,
        out.records,
    ))
}

/// Writes a block's bytes into a buffer from a position on; how many they are.
///
/// ```
/// use oliastrofu::{Cause, le::{self, Arena}};
/// let mut table = [3; 128];
/// table[..4].copy_from_slice(&[0, 1, 0, 2]);
/// let nothing = Arena { codes: &[], values: &[], records: &[] };
/// let mut buffer = [7; 8];
/// assert_eq!(le::encode(&table, nothing, &mut buffer, 2)?, 5);
/// assert_eq!(buffer, [7, 7, 1, 0, 0, 0, 0, 7]);
/// let broken = Arena { values: &[0], ..nothing };
/// assert_eq!(le::encode(&table, broken, &mut buffer, 2).unwrap_err().cause, Cause::Limit);
/// # Ok::<(), oliastrofu::Refusal>(())
/// ```
pub fn encode(
    table: &[u8],
    block: Arena<'_>,
    buffer: &mut [u8],
    at: usize,
) -> Result<usize, Refusal> {
    encoded(boundary::encode(
        table,
        block.codes,
        block.values,
        block.records,
        buffer,
        at,
    ))
}

/// Reads a block from a place in the bytes on.
///
/// ```
/// use oliastrofu::{lent::Decoded, le::{self, Outputs}};
/// let mut table = [3; 128];
/// table[..4].copy_from_slice(&[0, 1, 0, 2]);
/// let bytes = [3, 1, 1, 2, 3, 4, 5, 6, 7, 8, 1, 0, 0, 0, 1, 0, 0, 0, 0];
/// let (mut codes, mut values, mut records) = ([9; 1], [9; 8], [9; 82]);
/// let out = Outputs { codes: &mut codes, values: &mut values, records: &mut records };
/// let read = le::decode(&table, &bytes, 0, out)?;
/// assert_eq!(read, Decoded { batches: 1, operations: 1, used: 19 });
/// assert_eq!(values, [1, 2, 3, 4, 5, 6, 7, 8]);
/// # Ok::<(), oliastrofu::Refusal>(())
/// ```
pub fn decode(table: &[u8], bytes: &[u8], at: usize, out: Outputs<'_>) -> Result<Decoded, Refusal> {
    decoded(boundary::decode(
        table,
        bytes,
        at,
        out.codes,
        out.values,
        out.records,
    ))
}

/// Reads a block strictly: as [`decode`] does, if it is one that batching makes. The block is in the
/// outputs' front, and lent back. See [`lent::decode_strict`](crate::lent::decode_strict).
///
/// ```
/// use oliastrofu::{Cause, le::{self, Outputs}};
/// let mut table = [3; 128];
/// table[..4].copy_from_slice(&[0, 1, 0, 2]);
/// let mut bytes = [5, 1, 5, 0, 0, 0, 0, 0, 0, 0, 0, 1, 0, 0, 0, 2, 0, 0, 0, 1];
/// let (mut codes, mut values, mut records) = ([9; 2], [9; 17], [9; 82]);
/// let out = Outputs { codes: &mut codes, values: &mut values, records: &mut records };
/// let finished = le::decode_strict(&table, &bytes, 0, out)?;
/// assert_eq!(finished.values, [5, 0, 0, 0, 0, 0, 0, 0, 0, 0, 0, 0, 0, 0, 0, 0]);
/// assert_eq!((finished.listed(), finished.used()), (1, 20));
///
/// bytes[19] |= 0x80;
/// let out = Outputs { codes: &mut codes, values: &mut values, records: &mut records };
/// let refusal = le::decode_strict(&table, &bytes, 0, out).unwrap_err();
/// assert_eq!((refusal.cause, refusal.place), (Cause::Unfinished, 0));
/// assert_eq!((codes, values), ([0; 2], [0; 17]));
/// # Ok::<(), oliastrofu::Refusal>(())
/// ```
pub fn decode_strict<'a>(
    table: &[u8],
    bytes: &[u8],
    at: usize,
    out: Outputs<'a>,
) -> Result<Finished<Arena<'a>>, Refusal> {
    let read = decoded(boundary::decode_strict(
        table,
        bytes,
        at,
        out.codes,
        out.values,
        out.records,
    ))?;
    Ok(Finished::<Arena<'_>>::in_front(read, out))
}

/// The structure check.
pub fn structure(block: Arena<'_>) -> Result<(), Refusal> {
    checked(boundary::structure(
        block.codes,
        block.values,
        block.records,
    ))
}

/// The padding check (and before it the structure check).
pub fn padding(block: Arena<'_>) -> Result<(), Refusal> {
    checked(boundary::padding(block.codes, block.values, block.records))
}

/// The commitment check (and before it structure and the operations).
pub fn commitment(table: &[u8], block: Arena<'_>) -> Result<(), Refusal> {
    checked(boundary::commitment(
        table,
        block.codes,
        block.values,
        block.records,
    ))
}

/// Fills the table for raw indices; how many entries it has.
///
/// ```
/// use oliastrofu::le::{self, Arena};
/// let mut entries = [9; 10];
/// let nothing = Arena { codes: &[], values: &[], records: &[] };
/// assert_eq!(le::raw_table(nothing, &mut entries)?, 1);
/// assert_eq!(entries, [0; 10]);
/// # Ok::<(), oliastrofu::Refusal>(())
/// ```
pub fn raw_table(block: Arena<'_>, entries: &mut [u8]) -> Result<usize, Refusal> {
    tabled(boundary::raw_table(
        block.codes,
        block.values,
        block.records,
        entries,
    ))
}

/// Fills the table for padded indices; how many entries it has.
pub fn padded_table(block: Arena<'_>, entries: &mut [u8]) -> Result<usize, Refusal> {
    tabled(boundary::padded_table(
        block.codes,
        block.values,
        block.records,
        entries,
    ))
}

/// The padded index of a raw index; the run is exactly the raw table's entries.
///
/// ```
/// use oliastrofu::{PaddedIndex, RawIndex, le};
/// let entries = [0, 0, 0, 0, 0, 0, 0, 0, 1, 0, 0, 0, 0, 0, 0, 0];
/// assert_eq!(le::padded_index(&entries, RawIndex(1)), Some(PaddedIndex(2)));
/// assert_eq!(le::padded_index(&entries[1..], RawIndex(0)), None);
/// ```
pub fn padded_index(raw_table: &[u8], raw: RawIndex) -> Option<PaddedIndex> {
    index(boundary::padded_index(raw_table, raw.0)).map(PaddedIndex)
}

/// The raw index of a padded index; the run is exactly the padded table's entries.
pub fn raw_index(padded_table: &[u8], padded: PaddedIndex) -> Option<RawIndex> {
    index(boundary::raw_index(padded_table, padded.0)).map(RawIndex)
}
