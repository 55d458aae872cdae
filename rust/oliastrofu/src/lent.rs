//! Every function over lent slices: nothing is allocated.
//!
//! Outputs longer than the result are filled with zeros after it. A refused build, decode or table
//! leaves its outputs all zero; a refused encode changes no byte. Compare's working room is all zero
//! after every call, its report after a refused one.

use crate::{
    Arena, CompareRefusal, Differences, Finished, PaddedIndex, RECORD, RawIndex, Refusal, Source,
    boundary::{
        self, BuildReply, CheckReply, DecodeReply, EncodeReply, HeadReply, IndexReply, TableReply,
    },
};

/// The runs that build and decode fill, and that compare works in: opcodes, values, and records of 82
/// bytes.
#[derive(Debug)]
pub struct Outputs<'a> {
    pub codes: &'a mut [u8],
    pub values: &'a mut [u64],
    pub records: &'a mut [u8],
}

/// What build made.
#[derive(Clone, Copy, Debug, PartialEq, Eq)]
pub struct Built {
    pub batches: usize,
    /// Padded operations.
    pub operations: usize,
}

/// What decode read.
#[derive(Clone, Copy, Debug, PartialEq, Eq)]
pub struct Decoded {
    pub batches: usize,
    /// Padded operations.
    pub operations: usize,
    /// The bytes of the block.
    pub used: usize,
}

/// What a block needs room for.
#[derive(Clone, Copy, Debug, PartialEq, Eq)]
pub struct Head {
    pub batches: usize,
    /// Padded operations.
    pub operations: usize,
}

/// Batches a list of operations under a table of kinds.
///
/// ```
/// use oliastrofu::lent::{self, Built, Outputs};
/// let mut table = [3; 128];
/// table[..4].copy_from_slice(&[0, 1, 0, 2]);
/// let (mut codes, mut values, mut records) = ([9; 3], [9; 3], [9; 82]);
/// let out = Outputs { codes: &mut codes, values: &mut values, records: &mut records };
/// let built = lent::build(&table, &[1], &[5], out)?;
/// assert_eq!(built, Built { batches: 1, operations: 2 });
/// assert_eq!((codes, values), ([1, 0, 0], [5, 0, 0]));
/// # Ok::<(), oliastrofu::Refusal>(())
/// ```
pub fn build(
    table: &[u8],
    codes: &[u8],
    values: &[u64],
    out: Outputs<'_>,
) -> Result<Built, Refusal> {
    built(boundary::build(
        table,
        codes,
        values,
        out.codes,
        out.values,
        out.records,
    ))
}

/// Writes a block's bytes into a buffer from a position on; how many they are.
///
/// ```
/// use oliastrofu::{Arena, lent};
/// let mut table = [3; 128];
/// table[..4].copy_from_slice(&[0, 1, 0, 2]);
/// let nothing = Arena { codes: &[], values: &[], records: &[] };
/// let mut buffer = [7; 8];
/// assert_eq!(lent::encode(&table, nothing, &mut buffer, 2)?, 5);
/// assert_eq!(buffer, [7, 7, 1, 0, 0, 0, 0, 7]);
/// # Ok::<(), oliastrofu::Refusal>(())
/// ```
pub fn encode(
    table: &[u8],
    block: Arena<'_>,
    buffer: &mut [u8],
    at: usize,
) -> Result<usize, Refusal> {
    encoded(boundary::encode(
        table,
        block.codes,
        block.values,
        block.records,
        buffer,
        at,
    ))
}

/// How many operations and batches the block at a place in the bytes has: with room for them
/// [`decode`] answers as with any more. Only the count, the operations and the batch count are
/// read, so decode may still refuse the block; what is refused here, decode with room for every
/// block refuses in the same way. 13 is never given.
///
/// ```
/// use oliastrofu::lent::{self, Head};
/// let mut table = [3; 128];
/// table[..4].copy_from_slice(&[0, 1, 0, 2]);
/// let bytes = [5, 1, 5, 0, 0, 0, 0, 0, 0, 0, 0, 1, 0, 0, 0, 2, 0, 0, 0, 1];
/// let head = lent::head(&table, &bytes, 0)?;
/// assert_eq!(head, Head { batches: 1, operations: 2 });
/// let mut codes = vec![0; head.operations];
/// let mut values = vec![0; head.operations];
/// let mut records = vec![0; head.batches * oliastrofu::RECORD];
/// let out = lent::Outputs { codes: &mut codes, values: &mut values, records: &mut records };
/// assert_eq!(lent::decode(&table, &bytes, 0, out)?.used, 20);
/// # Ok::<(), oliastrofu::Refusal>(())
/// ```
pub fn head(table: &[u8], bytes: &[u8], at: usize) -> Result<Head, Refusal> {
    headed(boundary::head(table, bytes, at))
}

/// Reads a block from a place in the bytes on.
///
/// ```
/// use oliastrofu::lent::{self, Decoded, Outputs};
/// let mut table = [3; 128];
/// table[..4].copy_from_slice(&[0, 1, 0, 2]);
/// let bytes = [3, 2, 1, 0, 0, 0, 1, 0, 0, 0, 0];
/// let (mut codes, mut values, mut records) = ([9; 1], [9; 1], [9; 82]);
/// let out = Outputs { codes: &mut codes, values: &mut values, records: &mut records };
/// let read = lent::decode(&table, &bytes, 0, out)?;
/// assert_eq!(read, Decoded { batches: 1, operations: 1, used: 11 });
/// # Ok::<(), oliastrofu::Refusal>(())
/// ```
pub fn decode(table: &[u8], bytes: &[u8], at: usize, out: Outputs<'_>) -> Result<Decoded, Refusal> {
    decoded(boundary::decode(
        table,
        bytes,
        at,
        out.codes,
        out.values,
        out.records,
    ))
}

/// Reads a block strictly: as [`decode`] does, if it is one that batching makes. The block is in the
/// outputs' front, and lent back.
///
/// What decode refuses is refused in the same way; else 18 names the first batch that differs from
/// those of [`build`] on the block's own operations, or batch 0 where these are none or over 16,384.
/// No other room is wanted than decode's.
///
/// ```
/// use oliastrofu::{Cause, lent::{self, Outputs}};
/// let mut table = [3; 128];
/// table[..4].copy_from_slice(&[0, 1, 0, 2]);
/// let mut bytes = [5, 1, 5, 0, 0, 0, 0, 0, 0, 0, 0, 1, 0, 0, 0, 2, 0, 0, 0, 1];
/// let (mut codes, mut values, mut records) = ([9; 3], [9; 3], [9; 83]);
/// let out = Outputs { codes: &mut codes, values: &mut values, records: &mut records };
/// let finished = lent::decode_strict(&table, &bytes, 0, out)?;
/// assert_eq!((finished.codes, finished.values), (&[1, 0][..], &[5, 0][..]));
/// assert_eq!((finished.listed(), finished.used()), (1, 20));
/// assert_eq!(lent::commitment(&table, *finished), Ok(()));
///
/// // The last flag of its only batch, whose count is 2: decode keeps it.
/// bytes[19] |= 0x80;
/// let out = Outputs { codes: &mut codes, values: &mut values, records: &mut records };
/// let refusal = lent::decode_strict(&table, &bytes, 0, out).unwrap_err();
/// assert_eq!((refusal.cause, refusal.place), (Cause::Unfinished, 0));
/// assert_eq!((codes, values, records), ([0; 3], [0; 3], [0; 83]));
/// # Ok::<(), oliastrofu::Refusal>(())
/// ```
pub fn decode_strict<'a>(
    table: &[u8],
    bytes: &[u8],
    at: usize,
    out: Outputs<'a>,
) -> Result<Finished<Arena<'a>>, Refusal> {
    let read = decoded(boundary::decode_strict(
        table,
        bytes,
        at,
        out.codes,
        out.values,
        out.records,
    ))?;
    Ok(Finished::<Arena<'_>>::in_front(read, out))
}

/// Compares two blocks: how the second differs from the first, in a lent report.
///
/// Working room is as for [`decode`], for each block; [`head`] says how much it needs. It ends zeroed,
/// whatever the answer. An entry of the report is [`ENTRY`](crate::ENTRY) numbers; those after the last
/// entry are zero. If a block is refused the refusal says which, the first if both are; a report too
/// short is refused last, without a side. Refused, the report is all zero.
///
/// ```
/// use oliastrofu::{Cause, Difference, Source, lent::{self, Outputs}};
/// let mut table = [3; 128];
/// table[..4].copy_from_slice(&[0, 1, 0, 2]);
/// // The second has 6 for 5 as its immediate.
/// let first = [5, 1, 5, 0, 0, 0, 0, 0, 0, 0, 0, 1, 0, 0, 0, 2, 0, 0, 0, 1];
/// let second = [5, 1, 6, 0, 0, 0, 0, 0, 0, 0, 0, 1, 0, 0, 0, 2, 0, 0, 0, 1];
/// let source = |bytes| Source { table: &table, bytes, at: 0 };
///
/// let (mut codes, mut values, mut records) = ([9; 4], [9; 4], [9; 2 * 82]);
/// let (codes, values, records) = (
///     codes.split_at_mut(2),
///     values.split_at_mut(2),
///     records.split_at_mut(82),
/// );
/// let one = Outputs { codes: codes.0, values: values.0, records: records.0 };
/// let two = Outputs { codes: codes.1, values: values.1, records: records.1 };
/// let mut report = [9; 12];
/// let differences = lent::compare(source(&first), source(&second), one, two, &mut report)?;
/// assert!(differences.eq([
///     Difference::Number { batch: 0, group: 1 },
///     Difference::Operation { batch: 0, place: 0 },
/// ]));
/// assert_eq!(report, [1, 0, 1, 0, 4, 0, 0, 0, 0, 0, 0, 0]);
///
/// // Two entries have no room in seven numbers.
/// let one = Outputs { codes: codes.0, values: values.0, records: records.0 };
/// let two = Outputs { codes: codes.1, values: values.1, records: records.1 };
/// let refused = lent::compare(source(&first), source(&second), one, two, &mut report[..7]);
/// let refused = refused.unwrap_err();
/// assert_eq!((refused.side, refused.refusal.cause), (None, Cause::Room));
/// assert_eq!(report, [0; 12]);
/// # Ok::<(), oliastrofu::CompareRefusal>(())
/// ```
pub fn compare<'a>(
    first: Source<'_>,
    second: Source<'_>,
    first_room: Outputs<'_>,
    second_room: Outputs<'_>,
    report: &'a mut [i32],
) -> Result<Differences<'a>, CompareRefusal> {
    let reply = boundary::compare(first, second, first_room, second_room, report);
    CompareRefusal::check(reply.mark, reply.number, reply.place)?;
    Ok(Differences::in_front(report, reply.entries))
}

/// The structure check.
///
/// ```
/// use oliastrofu::{Arena, Cause, lent};
/// let block = Arena { codes: &[2], values: &[0], records: &[0; 82] };
/// let refusal = lent::structure(block).unwrap_err();
/// // The one batch covers no operation: only the sum is wrong.
/// assert_eq!((refusal.cause, refusal.place), (Cause::Structure, 1));
/// ```
pub fn structure(block: Arena<'_>) -> Result<(), Refusal> {
    checked(boundary::structure(
        block.codes,
        block.values,
        block.records,
    ))
}

/// The padding check (and before it the structure check).
///
/// ```
/// use oliastrofu::{Arena, Batch, Cause, lent};
/// let mut batch = Batch::default();
/// batch.flags[0] = 1;
/// let padding = |batch: Batch| {
///     lent::padding(Arena { codes: &[], values: &[], records: &batch.record() })
/// };
/// // At or above the count a flag is not looked at.
/// assert_eq!(padding(batch), Ok(()));
/// batch.count = 1;
/// assert_eq!(padding(batch).unwrap_err().cause, Cause::Padding);
/// ```
pub fn padding(block: Arena<'_>) -> Result<(), Refusal> {
    checked(boundary::padding(block.codes, block.values, block.records))
}

/// The commitment check (and before it structure and the operations).
///
/// ```
/// use oliastrofu::{Arena, lent};
/// let mut table = [3; 128];
/// table[..4].copy_from_slice(&[0, 1, 0, 2]);
/// let block = Arena { codes: &[], values: &[], records: &[0; 82] };
/// assert_eq!(lent::commitment(&table, block), Ok(()));
/// ```
pub fn commitment(table: &[u8], block: Arena<'_>) -> Result<(), Refusal> {
    checked(boundary::commitment(
        table,
        block.codes,
        block.values,
        block.records,
    ))
}

/// Fills the table for raw indices; how many entries it has.
///
/// ```
/// use oliastrofu::{Arena, lent};
/// let mut entries = [9; 2];
/// let nothing = Arena { codes: &[], values: &[], records: &[] };
/// assert_eq!(lent::raw_table(nothing, &mut entries)?, 1);
/// assert_eq!(entries, [0, 0]);
/// # Ok::<(), oliastrofu::Refusal>(())
/// ```
pub fn raw_table(block: Arena<'_>, entries: &mut [u64]) -> Result<usize, Refusal> {
    tabled(boundary::raw_table(
        block.codes,
        block.values,
        block.records,
        entries,
    ))
}

/// Fills the table for padded indices; how many entries it has.
///
/// ```
/// use oliastrofu::{Arena, Cause, lent};
/// let nothing = Arena { codes: &[], values: &[], records: &[] };
/// let refusal = lent::padded_table(nothing, &mut []).unwrap_err();
/// assert_eq!(refusal.cause, Cause::Room);
/// ```
pub fn padded_table(block: Arena<'_>, entries: &mut [u64]) -> Result<usize, Refusal> {
    tabled(boundary::padded_table(
        block.codes,
        block.values,
        block.records,
        entries,
    ))
}

/// The padded index of a raw index; the run is exactly the raw table's entries.
///
/// ```
/// use oliastrofu::{PaddedIndex, RawIndex, lent};
/// assert_eq!(lent::padded_index(&[0, 1], RawIndex(1)), Some(PaddedIndex(2)));
/// assert_eq!(lent::padded_index(&[0, 1], RawIndex(2)), None);
/// ```
pub fn padded_index(raw_table: &[u64], raw: RawIndex) -> Option<PaddedIndex> {
    index(boundary::padded_index(raw_table, raw.0)).map(PaddedIndex)
}

/// The raw index of a padded index; the run is exactly the padded table's entries.
///
/// ```
/// use oliastrofu::{PaddedIndex, RawIndex, lent};
/// assert_eq!(lent::raw_index(&[0, 0, 1], PaddedIndex(2)), Some(RawIndex(1)));
/// assert_eq!(lent::raw_index(&[1], PaddedIndex(0)), None);
/// ```
pub fn raw_index(padded_table: &[u64], padded: PaddedIndex) -> Option<RawIndex> {
    index(boundary::raw_index(padded_table, padded.0)).map(RawIndex)
}

/// The group of an operation of a batch, and its place in the group; none past the end.
///
/// ```
/// use oliastrofu::{Batch, lent};
/// let record = Batch { starts: [0, 1, 3, 3, 3, 3, 3, 3, 3], count: 2, ..Batch::default() }.record();
/// assert_eq!(lent::group_of(&record, 2)?, Some((1, 1)));
/// assert_eq!(lent::group_of(&record, 3)?, None);
/// # Ok::<(), oliastrofu::Refusal>(())
/// ```
pub fn group_of(record: &[u8; RECORD], index: usize) -> Result<Option<(usize, usize)>, Refusal> {
    let reply = boundary::group(record, index);
    Refusal::check(reply.number, reply.place)?;
    Ok((reply.found != 0).then_some((reply.group, reply.position)))
}

/// The first group with operations after a group; none if there is none.
///
/// ```
/// use oliastrofu::{Batch, lent};
/// let record = Batch { starts: [0, 1, 1, 2, 2, 2, 2, 2, 2], count: 3, ..Batch::default() }.record();
/// assert_eq!(lent::next_group(&record, 0)?, Some(2));
/// assert_eq!(lent::next_group(&record, usize::MAX)?, None);
/// # Ok::<(), oliastrofu::Refusal>(())
/// ```
pub fn next_group(record: &[u8; RECORD], group: usize) -> Result<Option<usize>, Refusal> {
    let reply = boundary::next_group(record, group);
    Refusal::check(reply.number, reply.place)?;
    Ok((reply.found != 0).then_some(reply.group))
}

// Replies, as these functions and those of `le` give them.

pub(crate) fn built(reply: BuildReply) -> Result<Built, Refusal> {
    Refusal::check(reply.number, reply.place)?;
    Ok(Built {
        batches: reply.batches,
        operations: reply.operations,
    })
}

pub(crate) fn encoded(reply: EncodeReply) -> Result<usize, Refusal> {
    Refusal::check(reply.number, reply.place)?;
    Ok(reply.length)
}

pub(crate) fn decoded(reply: DecodeReply) -> Result<Decoded, Refusal> {
    Refusal::check(reply.number, reply.place)?;
    Ok(Decoded {
        batches: reply.batches,
        operations: reply.operations,
        used: reply.used,
    })
}

fn headed(reply: HeadReply) -> Result<Head, Refusal> {
    Refusal::check(reply.number, reply.place)?;
    Ok(Head {
        batches: reply.batches,
        operations: reply.operations,
    })
}

pub(crate) fn checked(reply: CheckReply) -> Result<(), Refusal> {
    Refusal::check(reply.number, reply.place)
}

pub(crate) fn tabled(reply: TableReply) -> Result<usize, Refusal> {
    Refusal::check(reply.number, reply.place)?;
    Ok(reply.entries)
}

pub(crate) fn index(reply: IndexReply) -> Option<usize> {
    (reply.found != 0).then_some(reply.index)
}
