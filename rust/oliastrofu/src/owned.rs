//! The same functions with room of their own: what they give back is a `Vec` or made of them.

use crate::{
    Arena, Batch, Block, Cause, CompareRefusal, ENTRY, Finished, LONGEST_REPORT, PaddedIndex,
    PaddedTable, RECORD, RawIndex, RawTable, Refusal, Report, Source,
    boundary::{CompareReply, DecodeReply, New},
    lent::{self, Head},
};

/// Operations in a list to batch.
const MOST_LISTED: usize = 16_384;
/// Padded operations in a block.
const MOST_PADDED: usize = 65_535;
/// Batches in a block.
const MOST_BATCHES: usize = 16_384;

impl From<New> for Block {
    fn from(new: New) -> Self {
        Self {
            codes: new.codes,
            values: new.values,
            records: new.records,
        }
    }
}

/// Cuts a run at a length, and gives back what is after it.
fn cut<T>(run: &mut Vec<T>, length: usize) {
    run.truncate(length);
    run.shrink_to_fit();
}

fn of_records(batches: usize) -> usize {
    batches.saturating_mul(RECORD)
}

/// How many operations and batches a list of so many operations, so many of them with an
/// immediate, gets at most.
///
/// A batch of j immediates has 8 - j groups of operations. It ends where a plain operation comes
/// and all eight groups are taken, or an immediate and seven are: then its groups but the last have
/// nine operations, up to j of them eight. So 72 is at most its operations, and ten for each of its
/// immediates and for the one that came. Also it has seven operations or more, whatever they are.
/// A group of operations gets one padding, at most: if it ends in an immediate's operation, or is
/// empty, which one group of a batch can be, and three of the last one.
fn most(listed: usize, immediates: usize) -> (usize, usize) {
    let by_kind = listed.saturating_add(immediates.saturating_mul(20)) / 72;
    let batches = by_kind.min(listed / 7).saturating_add(1);
    let groups = batches.saturating_mul(8).saturating_sub(immediates);
    let paddings = immediates
        .saturating_add(batches)
        .saturating_add(3)
        .min(groups);
    (listed.saturating_add(paddings), batches)
}

/// Batches a list of operations under a table of kinds.
///
/// ```
/// let mut table = [3; 128];
/// table[..4].copy_from_slice(&[0, 1, 0, 2]);
/// let block = oliastrofu::build(&table, &[1], &[5])?;
/// assert_eq!(block.codes, [1, 0]);
/// let batch = block.batches().next().unwrap();
/// assert_eq!((batch.count, &batch.numbers[..2]), (2, &[1, 5][..]));
///
/// // An opcode that is unassigned is 4, a value at the field's size 17; the first of them is named.
/// let order = 0xffff_ffff_0000_0001;
/// let refused = |codes: &[u8], values: &[u64]| {
///     let refusal = oliastrofu::build(&table, codes, values).unwrap_err();
///     (refusal.number(), refusal.place)
/// };
/// assert_eq!(refused(&[2, 4, 1], &[0, 0, order]), (4, 1));
/// assert_eq!(refused(&[2, 1, 4], &[0, order, 0]), (17, 1));
/// // So is a value where the kind has none.
/// assert_eq!(refused(&[2], &[1]), (17, 0));
/// # Ok::<(), oliastrofu::Refusal>(())
/// ```
pub fn build(table: &[u8], codes: &[u8], values: &[u64]) -> Result<Block, Refusal> {
    // A list over the limit is refused whatever the room.
    let listed = if codes.len() > MOST_LISTED {
        0
    } else {
        codes.len()
    };
    let immediates = (codes.iter().take(listed))
        .filter(|&&code| table.get(usize::from(code)) == Some(&1))
        .count();
    let (operations, batches) = most(listed, immediates);
    let made =
        |operations, batches| New::build(table, codes, values, operations, of_records(batches));
    let (mut reply, mut new) = made(operations, batches);
    if Cause::of_number(reply.number) == Cause::Room {
        // It does not come to this, as far as we know. No list gets more.
        (reply, new) = made(65_536, MOST_LISTED);
    }
    let built = lent::built(reply)?;
    let mut block = Block::from(new);
    cut(&mut block.codes, built.operations);
    cut(&mut block.values, built.operations);
    cut(&mut block.records, of_records(built.batches));
    Ok(block)
}

/// The bytes of a block.
///
/// ```
/// let mut table = [3; 128];
/// table[..4].copy_from_slice(&[0, 1, 0, 2]);
/// let block = oliastrofu::build(&table, &[1], &[5])?;
/// let bytes = oliastrofu::encode(&table, &block)?;
/// assert_eq!(bytes, [5, 1, 5, 0, 0, 0, 0, 0, 0, 0, 0, 1, 0, 0, 0, 2, 0, 0, 0, 1]);
///
/// let mut other = block.clone();
/// other.values[1] = 1;
/// assert_eq!(oliastrofu::encode(&table, &other).unwrap_err().number(), 17);
/// other.codes[1] = 4;
/// assert_eq!(oliastrofu::encode(&table, &other).unwrap_err().number(), 4);
/// # Ok::<(), oliastrofu::Refusal>(())
/// ```
pub fn encode(table: &[u8], block: &Block) -> Result<Vec<u8>, Refusal> {
    let Arena { codes, records, .. } = block.arena();
    let operations = codes.len().min(MOST_PADDED);
    let batches = (records.len() / RECORD).min(MOST_BATCHES);
    // At most three bytes of count, nine for an operation, four, and five for a batch.
    let most = 7usize
        .saturating_add(operations.saturating_mul(9))
        .saturating_add(batches.saturating_mul(5));
    let mut bytes = vec![0; most];
    let length = lent::encode(table, block.arena(), &mut bytes, 0)?;
    bytes.truncate(length);
    Ok(bytes)
}

/// The block that begins at a place in the bytes, and how many of them it takes. What comes after
/// it is not read.
///
/// The block keeps just the room that it needs, and is not refused for want of room.
///
/// ```
/// let mut table = [3; 128];
/// table[..4].copy_from_slice(&[0, 1, 0, 2]);
/// let bytes = [5, 1, 5, 0, 0, 0, 0, 0, 0, 0, 0, 1, 0, 0, 0, 2, 0, 0, 0, 1, 99];
/// let (block, used) = oliastrofu::decode(&table, &bytes, 0)?;
/// assert_eq!(used, 20);
/// assert_eq!(block, oliastrofu::build(&table, &[1], &[5])?);
///
/// let refused = |bytes: &[u8]| {
///     let refusal = oliastrofu::decode(&table, bytes, 0).unwrap_err();
///     (refusal.number(), refusal.place)
/// };
/// // The bytes end in the operation at byte 1; its value is not in the field; its opcode is none.
/// assert_eq!(refused(&[5, 1, 255, 255, 255, 255, 255, 255, 255]), (2, 1));
/// assert_eq!(refused(&[5, 1, 255, 255, 255, 255, 255, 255, 255, 255]), (17, 0));
/// assert_eq!(refused(&[5, 4, 255, 255, 255]), (4, 0));
/// # Ok::<(), oliastrofu::Refusal>(())
/// ```
pub fn decode(table: &[u8], bytes: &[u8], at: usize) -> Result<(Block, usize), Refusal> {
    read(New::decode, table, bytes, at)
}

/// The block that begins at a place in the bytes, if it is finished: one that batching makes. What
/// comes after it is not read.
///
/// A block is finished exactly if [`build`] of some list and [`encode`] write its very bytes; that
/// list is the block's own operations, its padding left out. What [`decode`] refuses is refused in
/// the same way; else [`Cause::Unfinished`] (18) names the first batch that differs from those of
/// the block's own list, or batch 0 where that list is empty or over 16,384. The block is not
/// refused for want of room.
///
/// ```
/// let mut table = [3; 128];
/// table[..4].copy_from_slice(&[0, 1, 0, 2]);
/// let bytes = [5, 1, 5, 0, 0, 0, 0, 0, 0, 0, 0, 1, 0, 0, 0, 2, 0, 0, 0, 1, 99];
/// let finished = oliastrofu::decode_strict(&table, &bytes, 0)?;
/// assert_eq!(*finished, oliastrofu::build(&table, &[1], &[5])?);
/// assert_eq!((finished.listed(), finished.used()), (1, 20));
///
/// let refused = |bytes: &[u8]| {
///     assert!(oliastrofu::decode(&table, bytes, 0).is_ok());
///     let refusal = oliastrofu::decode_strict(&table, bytes, 0).unwrap_err();
///     (refusal.number(), refusal.place)
/// };
/// // An operation, and a batch without any after it or before it.
/// assert_eq!(refused(&[3, 2, 2, 0, 0, 0, 1, 0, 0, 0, 0, 0, 0, 0, 0, 0]), (18, 1));
/// assert_eq!(refused(&[3, 2, 2, 0, 0, 0, 0, 0, 0, 0, 1, 0, 0, 0, 0, 0]), (18, 0));
/// // It is in group 1, and group 0 is empty.
/// assert_eq!(refused(&[3, 2, 1, 0, 0, 0, 0x10, 0, 0, 0, 0]), (18, 0));
/// // Nothing at all; padding alone.
/// assert_eq!(refused(&[1, 0, 0, 0, 0]), (18, 0));
/// assert_eq!(refused(&[3, 0, 1, 0, 0, 0, 1, 0, 0, 0, 1]), (18, 0));
/// # Ok::<(), oliastrofu::Refusal>(())
/// ```
pub fn decode_strict(table: &[u8], bytes: &[u8], at: usize) -> Result<Finished, Refusal> {
    let (block, used) = read(New::decode_strict, table, bytes, at)?;
    Ok(Finished::owned(block, used))
}

type Decoder = fn(&[u8], &[u8], usize, usize, usize) -> (DecodeReply, New);

/// One of the two decoders, with room of its own.
fn read(decode: Decoder, table: &[u8], bytes: &[u8], at: usize) -> Result<(Block, usize), Refusal> {
    let (operations, batches) = likely(bytes, at).unwrap_or((0, 0));
    let (mut reply, mut new) = decode(table, bytes, at, operations, of_records(batches));
    if Cause::of_number(reply.number) == Cause::Room {
        let head = head(table, bytes, at)?;
        let records = of_records(head.batches);
        (reply, new) = decode(table, bytes, at, head.operations, records);
    }
    let read = lent::decoded(reply)?;
    let mut block = Block::from(new);
    cut(&mut block.codes, read.operations);
    cut(&mut block.values, read.operations);
    cut(&mut block.records, of_records(read.batches));
    Ok((block, read.used))
}

/// What the block at a place is likely to need: as many operations as its count says (how a count
/// is written, document 01 says), and batches of eight operations or more, as far as the bytes that
/// are left can hold them. It is only a guess, and spares a walk over the operations: where it is
/// too small decode says so, and [`head`] is asked.
fn likely(bytes: &[u8], at: usize) -> Option<(usize, usize)> {
    let left = bytes.get(at..)?;
    let zeros = left.first()?.trailing_zeros();
    let length = usize::try_from(zeros).ok()?.checked_add(1)?;
    if length > 3 {
        return None;
    }
    let number = (left.get(..length)?.iter().rev())
        .fold(0u32, |number, &byte| number << 8 | u32::from(byte));
    let operations = usize::try_from(number >> length).ok()?.min(MOST_PADDED);
    let rest = left
        .len()
        .checked_sub(length)?
        .checked_sub(operations)?
        .checked_sub(4)?;
    let batches = (operations / 8).saturating_add(1).min(rest / 5);
    Some((operations, batches))
}

/// How the second of two blocks differs from the first. Each has a table of its own, and its own place
/// in its own bytes, which may be those of the other.
///
/// Batch by batch: the first group whose number differs, whose flag differs, whose length differs, the
/// first operation at a place both have that differs, and the group count; a batch that only one has
/// is missing in the other. Then the differences of the totals, second minus first. Nothing is reported
/// exactly if the two are the same block, under one table exactly if their bytes are the same. A block
/// that [`decode`] refuses is refused in the same way; neither is for want of room.
///
/// ```
/// use oliastrofu::{Difference, Side, Source};
/// let mut table = [3; 128];
/// table[..4].copy_from_slice(&[0, 1, 0, 2]);
/// // Two blocks one after another: an operation, and the same with another batch of one.
/// let bytes = [
///     3, 2, 1, 0, 0, 0, 1, 0, 0, 0, 0, // 11 bytes
///     5, 2, 2, 2, 0, 0, 0, 1, 0, 0, 0, 1, 0, 0, 0, 0, 0,
/// ];
/// let first = Source { table: &table, bytes: &bytes, at: 0 };
/// let second = Source { at: 11, ..first };
/// assert!(oliastrofu::compare(first, first)?.is_empty());
/// let report = oliastrofu::compare(first, second)?;
/// assert!(report.differences().eq([
///     Difference::Missing { batch: 1, side: Side::First },
///     Difference::Batches(1),
///     Difference::Padded(1),
///     Difference::Raw(1),
/// ]));
/// let report = oliastrofu::compare(second, first)?;
/// assert_eq!(report.differences().last(), Some(Difference::Raw(-1)));
/// # Ok::<(), oliastrofu::CompareRefusal>(())
/// ```
pub fn compare(first: Source<'_>, second: Source<'_>) -> Result<Report, CompareRefusal> {
    let guess = |source: Source<'_>| likely(source.bytes, source.at).unwrap_or((0, 0));
    let (mut reply, mut numbers) = compared(first, second, guess(first), guess(second));
    if Cause::of_number(reply.number) == Cause::Room {
        (reply, numbers) = compared(first, second, needed(first), needed(second));
    }
    CompareRefusal::check(reply.mark, reply.number, reply.place)?;
    cut(&mut numbers, reply.entries.saturating_mul(ENTRY));
    Ok(Report::owned(numbers))
}

/// Compares with room for so many operations and batches of each, and for every report on so many
/// batches: at most five entries for one that both have, one for one that only one has, and four.
fn compared(
    first: Source<'_>,
    second: Source<'_>,
    one: (usize, usize),
    two: (usize, usize),
) -> (CompareReply, Vec<i32>) {
    let common = one.1.min(two.1);
    let entries = (one.1.max(two.1))
        .saturating_add(common.saturating_mul(4))
        .saturating_add(4)
        .min(LONGEST_REPORT);
    let room = |(operations, batches): (usize, usize)| (operations, of_records(batches));
    let numbers = entries.saturating_mul(ENTRY);
    New::compare(first, second, room(one), room(two), numbers)
}

/// The operations and batches that a block has; the most there can be where even that is refused, so
/// that room is not what it is refused for.
fn needed(source: Source<'_>) -> (usize, usize) {
    match head(source.table, source.bytes, source.at) {
        Ok(head) => (head.operations, head.batches),
        Err(_) => (MOST_PADDED, MOST_BATCHES),
    }
}

/// How many operations and batches the block at a place in the bytes has; see [`lent::head`].
///
/// ```
/// use oliastrofu::lent::Head;
/// let mut table = [3; 128];
/// table[..4].copy_from_slice(&[0, 1, 0, 2]);
/// let bytes = [5, 1, 5, 0, 0, 0, 0, 0, 0, 0, 0, 1, 0, 0, 0, 2, 0, 0, 0, 1];
/// assert_eq!(oliastrofu::head(&table, &bytes, 0)?, Head { batches: 1, operations: 2 });
///
/// let bytes = [3, 1, 255, 255, 255, 255, 255, 255, 255, 255];
/// assert_eq!(oliastrofu::head(&table, &bytes, 0).unwrap_err().number(), 17);
/// assert_eq!(oliastrofu::head(&table, &[3, 4], 0).unwrap_err().number(), 4);
/// # Ok::<(), oliastrofu::Refusal>(())
/// ```
pub fn head(table: &[u8], bytes: &[u8], at: usize) -> Result<Head, Refusal> {
    lent::head(table, bytes, at)
}

/// The structure check.
///
/// ```
/// let mut table = [3; 128];
/// table[..4].copy_from_slice(&[0, 1, 0, 2]);
/// let mut block = oliastrofu::build(&table, &[2, 2], &[0, 0])?;
/// oliastrofu::structure(&block)?;
/// block.codes.push(2);
/// block.values.push(0);
/// let refusal = oliastrofu::structure(&block).unwrap_err();
/// assert_eq!((refusal.number(), refusal.place), (15, 1));
/// # Ok::<(), oliastrofu::Refusal>(())
/// ```
pub fn structure(block: &Block) -> Result<(), Refusal> {
    lent::structure(block.arena())
}

/// The padding check (and before it the structure check).
///
/// ```
/// let mut table = [3; 128];
/// table[..4].copy_from_slice(&[0, 1, 0, 2]);
/// let mut block = oliastrofu::build(&table, &[1], &[5])?;
/// oliastrofu::padding(&block)?;
/// block.codes[1] = 2;
/// assert_eq!(oliastrofu::padding(&block).unwrap_err().number(), 10);
/// # Ok::<(), oliastrofu::Refusal>(())
/// ```
pub fn padding(block: &Block) -> Result<(), Refusal> {
    lent::padding(block.arena())
}

/// The commitment check (and before it structure and the operations).
///
/// ```
/// let mut table = [3; 128];
/// table[..4].copy_from_slice(&[0, 1, 0, 2]);
/// let mut block = oliastrofu::build(&table, &[1], &[5])?;
/// oliastrofu::commitment(&table, &block)?;
/// block.values[0] = 6;
/// assert_eq!(oliastrofu::commitment(&table, &block).unwrap_err().number(), 16);
/// block.values[0] = u64::MAX;
/// assert_eq!(oliastrofu::commitment(&table, &block).unwrap_err().number(), 17);
/// block.codes[0] = 4;
/// assert_eq!(oliastrofu::commitment(&table, &block).unwrap_err().number(), 4);
/// # Ok::<(), oliastrofu::Refusal>(())
/// ```
pub fn commitment(table: &[u8], block: &Block) -> Result<(), Refusal> {
    lent::commitment(table, block.arena())
}

/// Room for a table, one entry more than there are operations.
fn entries(block: &Block) -> Vec<u64> {
    vec![0; block.codes.len().min(MOST_PADDED).saturating_add(1)]
}

/// The table for raw indices.
///
/// ```
/// let mut table = [3; 128];
/// table[..4].copy_from_slice(&[0, 1, 0, 2]);
/// let block = oliastrofu::build(&table, &[1], &[5])?;
/// assert_eq!(oliastrofu::raw_table(&block)?.0, [0, 1]);
/// # Ok::<(), oliastrofu::Refusal>(())
/// ```
pub fn raw_table(block: &Block) -> Result<RawTable, Refusal> {
    let mut table = entries(block);
    let length = lent::raw_table(block.arena(), &mut table)?;
    table.truncate(length);
    Ok(RawTable(table))
}

/// The table for padded indices.
///
/// ```
/// let mut table = [3; 128];
/// table[..4].copy_from_slice(&[0, 1, 0, 2]);
/// let block = oliastrofu::build(&table, &[1], &[5])?;
/// assert_eq!(oliastrofu::padded_table(&block)?.0, [0, 0, 1]);
/// # Ok::<(), oliastrofu::Refusal>(())
/// ```
pub fn padded_table(block: &Block) -> Result<PaddedTable, Refusal> {
    let mut table = entries(block);
    let length = lent::padded_table(block.arena(), &mut table)?;
    table.truncate(length);
    Ok(PaddedTable(table))
}

/// The padded index of a raw index; none past the table's last entry.
///
/// ```
/// use oliastrofu::{PaddedIndex, RawIndex, RawTable, padded_index};
/// let table = RawTable(vec![0, 1]);
/// assert_eq!(padded_index(&table, RawIndex(1)), Some(PaddedIndex(2)));
/// ```
pub fn padded_index(table: &RawTable, raw: RawIndex) -> Option<PaddedIndex> {
    lent::padded_index(&table.0, raw)
}

/// The raw index of a padded index; none past the table's last entry.
///
/// ```
/// use oliastrofu::{PaddedIndex, PaddedTable, RawIndex, raw_index};
/// let table = PaddedTable(vec![0, 0, 1]);
/// assert_eq!(raw_index(&table, PaddedIndex(2)), Some(RawIndex(1)));
/// ```
pub fn raw_index(table: &PaddedTable, padded: PaddedIndex) -> Option<RawIndex> {
    lent::raw_index(&table.0, padded)
}

/// The group of an operation of a batch, and its place in the group; none past the end.
///
/// ```
/// use oliastrofu::{Batch, group_of};
/// let batch = Batch { starts: [0, 1, 3, 3, 3, 3, 3, 3, 3], count: 2, ..Batch::default() };
/// assert_eq!(group_of(&batch, 2)?, Some((1, 1)));
/// # Ok::<(), oliastrofu::Refusal>(())
/// ```
pub fn group_of(batch: &Batch, index: usize) -> Result<Option<(usize, usize)>, Refusal> {
    lent::group_of(&batch.record(), index)
}

/// The first group with operations after a group; none if there is none.
///
/// ```
/// use oliastrofu::{Batch, next_group};
/// let batch = Batch { starts: [0, 1, 1, 2, 2, 2, 2, 2, 2], count: 3, ..Batch::default() };
/// assert_eq!(next_group(&batch, 0)?, Some(2));
/// # Ok::<(), oliastrofu::Refusal>(())
/// ```
pub fn next_group(batch: &Batch, group: usize) -> Result<Option<usize>, Refusal> {
    lent::next_group(&batch.record(), group)
}

#[cfg(test)]
#[allow(clippy::arithmetic_side_effects)]
mod tests {
    use super::*;
    use crate::VM_TABLE;

    /// Does the room that [`most`] names hold the list's block?
    fn holds(list: &[bool]) -> bool {
        let codes: Vec<u8> = list
            .iter()
            .map(|&placed| if placed { 91 } else { 1 })
            .collect();
        let immediates = list.iter().filter(|&&placed| placed).count();
        let (operations, batches) = most(list.len(), immediates);
        let values = vec![0; codes.len()];
        let (reply, _) = New::build(&VM_TABLE, &codes, &values, operations, batches * RECORD);
        reply.number == 0
    }

    #[test]
    fn every_short_list_has_room() {
        for length in 1..=17 {
            for bits in 0..1u32 << length {
                let list: Vec<bool> = (0..length).map(|i| bits >> i & 1 == 1).collect();
                assert!(holds(&list), "{list:?}");
            }
        }
    }

    /// Runs of plain operations and of immediates, of all lengths that meet the ends of groups and
    /// batches.
    #[test]
    fn lists_of_runs_have_room() {
        for plain in 0..=75 {
            for placed in 0..=9 {
                for first in [0, 1, 7, 8, 9, 62, 63, 64] {
                    let run = (0..plain).map(|_| false).chain((0..placed).map(|_| true));
                    let list: Vec<bool> = (0..first)
                        .map(|_| false)
                        .chain(run.cycle().take(1_000))
                        .collect();
                    for length in (1..=list.len()).step_by(37) {
                        assert!(list.get(..length).is_none_or(holds));
                    }
                }
            }
        }
    }

    #[test]
    fn mixed_lists_have_room() {
        let mut seed = 0x2545_f491_4f6c_dd1du64;
        let mut next = |bound: u64| {
            seed ^= seed << 13;
            seed ^= seed >> 7;
            seed ^= seed << 17;
            seed % bound
        };
        for turn in 0..4_000 {
            let length = 1 + next(if turn % 40 == 0 { 16_384 } else { 400 });
            let one_in = 1 + next(40);
            let list: Vec<bool> = (0..length).map(|_| next(one_in) == 0).collect();
            assert!(holds(&list), "{list:?}");
        }
    }
}
