//! How two blocks differ (M-105).

use crate::{
    bytes::{decode_tried, own_list},
    call::{Answer, Source},
    data::{Batch, Operation, Refusal, filled},
};

/// The numbers of one entry of a report: its kind, the batch, the place, the difference.
pub const ENTRY: usize = 4;

type Entry = [i32; ENTRY];

/// A block that was read, and where the operations of each batch begin.
struct Read {
    list: Vec<Operation>,
    batches: Vec<Batch>,
    begins: Vec<usize>,
}

impl Read {
    fn new(list: Vec<Operation>, batches: Vec<Batch>) -> Self {
        let mut begins = Vec::new();
        let mut at = 0;
        for batch in &batches {
            begins.push(at);
            at += batch.total();
        }
        Self {
            list,
            batches,
            begins,
        }
    }

    /// An operation of a batch.
    fn operation(&self, batch: usize, place: usize) -> Operation {
        self.list[self.begins[batch] + place]
    }

    /// "Batches, padded operations, raw operations and paddings", in this order. A flag at or above
    /// the count is no padding (M-102); raw are the operations that are none.
    fn totals(&self) -> [usize; 4] {
        let mut paddings = 0;
        for batch in &self.batches {
            for group in 0..8 {
                if group < batch.count as usize && batch.flags[group] == 1 {
                    paddings += 1;
                }
            }
        }
        let raw = own_list(&self.list, &self.batches).len();
        [self.batches.len(), self.list.len(), raw, paddings]
    }
}

/// The first of some places where two differ.
fn first(places: usize, differ: impl Fn(usize) -> bool) -> Option<usize> {
    (0..places).find(|&place| differ(place))
}

/// What is reported of a batch that both blocks have: "the first group whose number differs, whose
/// flag differs or whose length differs, each with its place, the first operation, at a place both
/// have, whose opcode or value differs, and a differing group count". For each kind its place, if it
/// is reported. Places are counted in the batch.
fn of_batch(a: &Read, b: &Read, batch: usize) -> [Option<usize>; 5] {
    let (one, other) = (&a.batches[batch], &b.batches[batch]);
    let both_have = one.total().min(other.total());
    [
        first(8, |group| one.numbers[group] != other.numbers[group]),
        first(8, |group| one.flags[group] != other.flags[group]),
        first(8, |group| one.length(group) != other.length(group)),
        first(both_have, |place| {
            a.operation(batch, place) != b.operation(batch, place)
        }),
        (one.count != other.count).then_some(0),
    ]
}

/// The report on two blocks, in its order.
fn report(a: &Read, b: &Read) -> Vec<Entry> {
    let mut entries = Vec::new();
    for batch in 0..a.batches.len().max(b.batches.len()) {
        // "Missing on the other side": its place names the block that lacks it.
        if batch >= a.batches.len() {
            entries.push([6, batch as i32, 1, 0]);
        } else if batch >= b.batches.len() {
            entries.push([6, batch as i32, 2, 0]);
        } else {
            for (kind, place) in (1..).zip(of_batch(a, b, batch)) {
                if let Some(place) = place {
                    entries.push([kind, batch as i32, place as i32, 0]);
                }
            }
        }
    }
    for (kind, (one, other)) in (7..).zip(a.totals().into_iter().zip(b.totals())) {
        // "Second minus first, negative where the second is smaller; 0 isn't reported".
        let difference = other as i32 - one as i32;
        if difference != 0 {
            entries.push([kind, 0, 0, difference]);
        }
    }
    entries
}

fn read(source: Source<'_>) -> Result<Read, Refusal> {
    let (list, batches, _) = decode_tried(source.table, source.bytes, source.at, source.room)?;
    Ok(Read::new(list, batches))
}

/// The report on two blocks, or a refusal with its mark: 1 the first block's, 2 the second's, 0 the
/// report's, which has room for so many entries.
fn compare_tried(
    one: Source<'_>,
    other: Source<'_>,
    room: usize,
) -> Result<Vec<Entry>, (u8, Refusal)> {
    let a = read(one).map_err(|refusal| (1, refusal))?;
    let b = read(other).map_err(|refusal| (2, refusal))?;
    let entries = report(&a, &b);
    if entries.len() > room {
        let refusal = Refusal {
            number: 13,
            place: 0,
        };
        return Err((0, refusal));
    }
    Ok(entries)
}

/// Compares two blocks. The report is lent as so many numbers; what does not make a whole entry is
/// no room, and zeroed. The working room of both ends zeroed.
pub fn compare(one: Source<'_>, other: Source<'_>, report: usize) -> Answer {
    let (answer, entries) = match compare_tried(one, other, report / ENTRY) {
        Ok(entries) => (Answer::default(), entries),
        Err((mark, refusal)) => {
            let refused = Answer {
                mark,
                ..Answer::refused(refusal)
            };
            (refused, Vec::new())
        }
    };
    Answer {
        rest: [entries.len(), 0, 0],
        report: filled(entries.concat(), report),
        codes: vec![0; one.room.codes + other.room.codes],
        values: vec![0; one.room.values + other.room.values],
        records: vec![0; one.room.records + other.room.records],
        ..answer
    }
}
