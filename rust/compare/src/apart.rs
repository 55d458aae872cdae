//! How two blocks differ, by the request's words (M-105), batch beside batch: once over what decode
//! gave, once over what the original shows. Another way than the model's.

use model::{Answer, Source, batches_of};
use original::{Batch, Refused};

use crate::{inputs::Block, theirs};

/// Kind, batch, place, difference.
pub type Entry = [i32; 4];

/// The entries of an answer; all that the report has room for where it says more.
pub fn entries(answer: &Answer) -> &[Entry] {
    let (all, _) = answer.report.as_chunks();
    all.get(..answer.rest[0]).unwrap_or(all)
}

/// The first place that both runs have and where they differ.
fn first<T: PartialEq>(one: &[T], other: &[T]) -> Option<usize> {
    one.iter().zip(other).position(|(one, other)| one != other)
}

fn lengths(batch: &Batch) -> Vec<usize> {
    batch.starts.windows(2).map(|two| two[1] - two[0]).collect()
}

/// The entries of one batch that both have.
fn common(at: i32, one: &Batch, other: &Batch) -> Vec<Entry> {
    let places = [
        (1, first(&one.numbers, &other.numbers)),
        (2, first(&one.flags, &other.flags)),
        (3, first(&lengths(one), &lengths(other))),
        (4, first(&one.ops, &other.ops)),
        (5, first(&[one.count], &[other.count])),
    ];
    places
        .into_iter()
        .filter_map(|(kind, place)| Some([kind, at, place? as i32, 0]))
        .collect()
}

/// The report on two blocks whose paddings are counted.
fn report(one: &[Batch], other: &[Batch], paddings: [usize; 2]) -> Vec<Entry> {
    let mut entries = Vec::new();
    let (mut ones, mut others) = (one.iter(), other.iter());
    for at in 0.. {
        match (ones.next(), others.next()) {
            (Some(one), Some(other)) => entries.extend(common(at, one, other)),
            (Some(_), None) => entries.push([6, at, 2, 0]),
            (None, Some(_)) => entries.push([6, at, 1, 0]),
            (None, None) => break,
        }
    }
    let operations = |batches: &[Batch]| batches.iter().map(|batch| batch.ops.len()).sum::<usize>();
    let padded = [operations(one), operations(other)];
    let raw = [padded[0] - paddings[0], padded[1] - paddings[1]];
    let totals = [[one.len(), other.len()], padded, raw, paddings];
    for (kind, [first, second]) in (7..).zip(totals) {
        if first != second {
            let more = i64::try_from(second).unwrap_or(0) - i64::try_from(first).unwrap_or(0);
            entries.push([kind, 0, 0, more as i32]);
        }
    }
    entries
}

/// The report on what the original shows; what is no padding is what it calls raw.
pub fn shown(one: &[Batch], other: &[Batch]) -> Result<Vec<Entry>, Refused> {
    let paddings = |batches: &[Batch]| -> Result<usize, Refused> {
        let all: usize = batches.iter().map(|batch| batch.ops.len()).sum();
        Ok(all - original::raw_operations(batches)?.len())
    };
    Ok(report(one, other, [paddings(one)?, paddings(other)?]))
}

/// The batches of a block that was read, whatever its operations.
fn batches(block: &Block) -> Vec<Batch> {
    let mut ops = block
        .codes
        .iter()
        .copied()
        .zip(block.values.iter().copied());
    batches_of(&block.records)
        .iter()
        .filter_map(|record| theirs::batch(record, ops.by_ref().take(record.total()).collect()))
        .collect()
}

/// Flags that stand under the count.
fn paddings(batches: &[Batch]) -> usize {
    let under = |batch: &Batch| {
        batch.flags[..batch.count]
            .iter()
            .filter(|&&flag| flag)
            .count()
    };
    batches.iter().map(under).sum()
}

/// The whole answer, from what decode says of each block in its room.
pub fn by_rule(sides: [Source<'_>; 2], decoded: &[Answer; 2], lent: usize) -> Answer {
    let rooms = |of: fn(&Source<'_>) -> usize| sides.iter().map(of).sum::<usize>();
    let mut want = Answer {
        codes: vec![0; rooms(|side| side.room.codes)],
        values: vec![0; rooms(|side| side.room.values)],
        records: vec![0; rooms(|side| side.room.records)],
        report: vec![0; lent],
        ..Answer::default()
    };
    if let Some(at) = decoded.iter().position(|read| read.number != 0) {
        want.mark = at as u8 + 1;
        want.number = decoded[at].number;
        want.place = decoded[at].place;
        return want;
    }
    let [one, other] = [0, 1].map(|at| batches(&Block::of(&decoded[at])));
    let entries = report(&one, &other, [paddings(&one), paddings(&other)]);
    if lent / 4 < entries.len() {
        want.number = 13;
        return want;
    }
    want.rest[0] = entries.len();
    want.report[..4 * entries.len()].copy_from_slice(entries.as_flattened());
    want
}
