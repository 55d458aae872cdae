//! The comparison of two blocks (M-105) finds what is wrong: each of these answers like the model but
//! for one thing.

use compare::{
    Run, Seed, Stopped,
    apart::{self, Entry},
    inputs::Block,
    pairs,
    run::{Tally, decode_of},
};
use model::{Answer, Batch, Call, Function, Source, batches_of};

type Who = fn(Call<'_>) -> Answer;

fn tried(who: Who, in_ports_place: bool) -> Result<Tally, Stopped> {
    let mut run = Run::new(who, in_ports_place);
    // Most of them are found soon by these.
    let mut seed = Seed::new(13);
    for _ in 0..40 {
        pairs::turn(&mut run, &mut seed)?;
    }
    pairs::pairs(&mut run, 1, &mut |_| ())?;
    Ok(run.tally)
}

/// A program with a change of its own: a function, so that it can be handed on as one.
macro_rules! liar {
    ($change:expr) => {{
        fn who(call: Call<'_>) -> Answer {
            changed(call, $change)
        }
        who as Who
    }};
}

macro_rules! editor {
    ($edit:expr) => {{
        fn who(call: Call<'_>) -> Answer {
            edited(call, $edit)
        }
        who as Who
    }};
}

#[test]
fn the_model_is_not_stopped() {
    for in_ports_place in [false, true] {
        let tally =
            tried(model::answer, in_ports_place).unwrap_or_else(|Stopped(words)| panic!("{words}"));
        for (kind, &times) in tally.reported.iter().enumerate() {
            assert!(times > 1_000, "kind {kind}: {times}");
        }
        for (mark, &times) in tally.marked.iter().enumerate() {
            assert!(times > 1_000, "mark {mark}: {times}");
        }
        let at = Function::Compare as usize;
        assert!(tally.original[at] > 20_000, "{}", tally.original[at]);
        assert!(tally.kept_taken[at] > 1_000, "{}", tally.kept_taken[at]);
        let numbers = tally.numbers[at];
        for number in [0, 1, 2, 3, 4, 5, 6, 7, 8, 9, 10, 11, 13, 14, 17] {
            // The original is not asked for 13 of a room and 14, nor under other tables.
            assert!(numbers[number] > 100 || !in_ports_place, "{number}");
        }
    }
}

/// The longest report, and blocks at the limits.
#[test]
fn the_limits_hold() {
    let mut run = Run::new(model::answer, true);
    pairs::limits(&mut run).unwrap_or_else(|Stopped(words)| panic!("{words}"));
}

#[test]
fn a_report_with_an_entry_less_at_the_limit_is_stopped() {
    let short = liar!(|call, answer, _| match answer.rest[0] {
        81_923 => refused(call, 0, 13, 0),
        _ => answer,
    });
    let mut run = Run::new(short, false);
    assert!(pairs::limits(&mut run).is_err());
}

/// The two blocks of a call of compare, as they are read.
struct Two<'a> {
    sides: [Source<'a>; 2],
    /// What decode says of each.
    read: [Answer; 2],
}

impl Two<'_> {
    fn batches(&self, side: usize) -> Vec<Batch> {
        batches_of(&Block::of(&self.read[side]).records)
    }

    fn ops(&self, side: usize, batch: usize) -> Vec<(u8, u64)> {
        let block = Block::of(&self.read[side]);
        let begin = self.begin(side, batch);
        let total = self.batches(side)[batch].total();
        let all = block.codes.into_iter().zip(block.values);
        all.skip(begin).take(total).collect()
    }

    /// The operations before a batch.
    fn begin(&self, side: usize, batch: usize) -> usize {
        self.batches(side)[..batch].iter().map(Batch::total).sum()
    }

    fn common(&self) -> usize {
        self.read[0].rest[0].min(self.read[1].rest[0])
    }
}

/// A call of compare with this refusal.
fn refused(call: Call<'_>, mark: u8, number: u8, place: usize) -> Answer {
    let Call::Compare {
        first,
        second,
        report,
    } = call
    else {
        return Answer::default();
    };
    Answer {
        mark,
        number,
        place,
        codes: vec![0; first.room.codes + second.room.codes],
        values: vec![0; first.room.values + second.room.values],
        records: vec![0; first.room.records + second.room.records],
        report: vec![0; report],
        ..Answer::default()
    }
}

/// The answer with these entries, or 13.
fn reported(call: Call<'_>, entries: &[Entry]) -> Answer {
    let mut answer = refused(call, 0, 0, 0);
    if answer.report.len() / 4 < entries.len() {
        answer.number = 13;
        return answer;
    }
    answer.rest[0] = entries.len();
    answer.report[..4 * entries.len()].copy_from_slice(entries.as_flattened());
    answer
}

/// All entries, whatever the report's room; none if a block is refused.
fn all_entries(two: &Two<'_>) -> Vec<Entry> {
    let [first, second] = two.sides;
    let whole = model::compare(first, second, 4 * 81_923);
    apart::entries(&whole).to_vec()
}

fn two(call: Call<'_>) -> Option<Two<'_>> {
    let Call::Compare { first, second, .. } = call else {
        return None;
    };
    let sides = [first, second];
    let read = sides.map(|side| model::answer(decode_of(side)));
    Some(Two { sides, read })
}

fn changed(call: Call<'_>, change: fn(Call<'_>, Answer, &Two<'_>) -> Answer) -> Answer {
    let answer = model::answer(call);
    match two(call) {
        None => answer,
        Some(two) => change(call, answer, &two),
    }
}

/// Entries that are others than they should be, where both blocks are read.
fn edited(call: Call<'_>, edit: fn(&mut Vec<Entry>, &Two<'_>)) -> Answer {
    let answer = model::answer(call);
    match two(call) {
        Some(two) if two.read.iter().all(|read| read.number == 0) => {
            let mut entries = all_entries(&two);
            edit(&mut entries, &two);
            reported(call, &entries)
        }
        _ => answer,
    }
}

/// Sets the entry of a kind in a batch: this place, or none.
fn set(entries: &mut Vec<Entry>, kind: i32, batch: usize, place: Option<usize>) {
    let batch = batch as i32;
    entries.retain(|entry| entry[..2] != [kind, batch] || entry[0] > 6);
    if let Some(place) = place {
        let before = |entry: &&Entry| entry[0] < 7 && (entry[1], entry[0]) < (batch, kind);
        let at = entries.iter().take_while(before).count();
        entries.insert(at, [kind, batch, place as i32, 0]);
    }
}

/// Sets the entry of a total.
fn set_total(entries: &mut Vec<Entry>, kind: i32, difference: i32) {
    entries.retain(|entry| entry[0] != kind);
    if difference != 0 {
        let at = entries.iter().take_while(|entry| entry[0] < kind).count();
        // Kinds only rise where the totals are.
        let at = at.max(entries.iter().filter(|entry| entry[0] < 7).count());
        entries.insert(at, [kind, 0, 0, difference]);
    }
}

/// The places of a batch, by another rule than the first that differs.
fn placed(
    entries: &mut Vec<Entry>,
    two: &Two<'_>,
    kind: i32,
    rule: impl Fn(&Batch, &Batch) -> Option<usize>,
) {
    let (one, other) = (two.batches(0), two.batches(1));
    for batch in 0..two.common() {
        set(entries, kind, batch, rule(&one[batch], &other[batch]));
    }
}

fn last(differs: impl Fn(usize) -> bool) -> Option<usize> {
    (0..8).rev().find(|&group| differs(group))
}

fn length(batch: &Batch, group: usize) -> u8 {
    batch.starts[group + 1] - batch.starts[group]
}

/// Flags that are set, whatever the count.
fn flags_set(two: &Two<'_>, side: usize) -> i32 {
    let set = |batch: &Batch| batch.flags.iter().map(|&flag| i32::from(flag)).sum::<i32>();
    two.batches(side).iter().map(set).sum()
}

fn padded(two: &Two<'_>, side: usize) -> i32 {
    two.read[side].rest[1] as i32
}

/// Wrong entries of a report.
fn editors() -> Vec<(&'static str, Who)> {
    vec![
        (
            "first minus second",
            editor!(|entries, _| entries.iter_mut().for_each(|entry| entry[3] = -entry[3])),
        ),
        (
            "differences without their sign",
            editor!(|entries, _| entries
                .iter_mut()
                .for_each(|entry| entry[3] = entry[3].abs())),
        ),
        (
            "a missing batch is on the wrong side",
            editor!(|entries, _| {
                for entry in entries.iter_mut().filter(|entry| entry[0] == 6) {
                    entry[2] = 3 - entry[2];
                }
            }),
        ),
        (
            "only the first missing batch is reported",
            editor!(|entries, _| {
                let first = entries.iter().position(|entry| entry[0] == 6);
                let mut at = 0..;
                entries.retain(|entry| at.next() == first || entry[0] != 6);
            }),
        ),
        (
            "missing batches are not reported",
            editor!(|entries, _| entries.retain(|entry| entry[0] != 6)),
        ),
        (
            "a missing batch without operations is not reported",
            editor!(|entries, two| {
                let all = [two.batches(0), two.batches(1)];
                entries.retain(|entry| {
                    entry[0] != 6 || all[2 - entry[2] as usize][entry[1] as usize].total() > 0
                });
            }),
        ),
        (
            "the place of an operation is counted in the block",
            editor!(|entries, two| {
                for entry in entries.iter_mut().filter(|entry| entry[0] == 4) {
                    entry[2] += two.begin(0, entry[1] as usize) as i32;
                }
            }),
        ),
        (
            "batches are counted from 1",
            editor!(|entries, _| {
                for entry in entries.iter_mut().filter(|entry| entry[0] < 7) {
                    entry[1] += 1;
                }
            }),
        ),
        (
            "a total that does not differ is reported",
            editor!(|entries, _| {
                for kind in 7..=10 {
                    if !entries.iter().any(|entry| entry[0] == kind) {
                        let totals = entries.iter().filter(|entry| entry[0] < 7).count();
                        let before = entries[totals..].iter().filter(|entry| entry[0] < kind);
                        let at = totals + before.count();
                        entries.insert(at, [kind, 0, 0, 0]);
                    }
                }
            }),
        ),
        (
            "the last group whose number differs",
            editor!(|entries, two| placed(entries, two, 1, |one, other| {
                last(|group| one.numbers[group] != other.numbers[group])
            })),
        ),
        (
            "the last group whose flag differs",
            editor!(|entries, two| placed(entries, two, 2, |one, other| {
                last(|group| one.flags[group] != other.flags[group])
            })),
        ),
        (
            "the last group whose length differs",
            editor!(|entries, two| placed(entries, two, 3, |one, other| {
                last(|group| length(one, group) != length(other, group))
            })),
        ),
        (
            "starts are compared for lengths",
            editor!(|entries, two| placed(entries, two, 3, |one, other| {
                (0..9).find(|&at| one.starts[at] != other.starts[at])
            })),
        ),
        (
            "the last operation that differs",
            editor!(|entries, two| {
                for batch in 0..two.common() {
                    let (one, other) = (two.ops(0, batch), two.ops(1, batch));
                    let both = one.len().min(other.len());
                    let place = (0..both).rev().find(|&at| one[at] != other[at]);
                    set(entries, 4, batch, place);
                }
            }),
        ),
        (
            "an operation that only one has differs",
            editor!(|entries, two| {
                for batch in 0..two.common() {
                    let (one, other) = (two.ops(0, batch), two.ops(1, batch));
                    let all = one.len().max(other.len());
                    let place = (0..all).find(|&at| one.get(at) != other.get(at));
                    set(entries, 4, batch, place);
                }
            }),
        ),
        (
            "only opcodes are compared",
            editor!(|entries, two| {
                for batch in 0..two.common() {
                    let (one, other) = (two.ops(0, batch), two.ops(1, batch));
                    let place = one
                        .iter()
                        .zip(&other)
                        .position(|(one, other)| one.0 != other.0);
                    set(entries, 4, batch, place);
                }
            }),
        ),
        (
            "only values are compared",
            editor!(|entries, two| {
                for batch in 0..two.common() {
                    let (one, other) = (two.ops(0, batch), two.ops(1, batch));
                    let place = one
                        .iter()
                        .zip(&other)
                        .position(|(one, other)| one.1 != other.1);
                    set(entries, 4, batch, place);
                }
            }),
        ),
        (
            "flags are compared only under the count",
            editor!(|entries, two| placed(entries, two, 2, |one, other| {
                let under = usize::from(one.count.max(other.count));
                (0..under).find(|&group| one.flags[group] != other.flags[group])
            })),
        ),
        (
            "numbers are compared only under both counts",
            editor!(|entries, two| placed(entries, two, 1, |one, other| {
                let under = usize::from(one.count.min(other.count));
                (0..under).find(|&group| one.numbers[group] != other.numbers[group])
            })),
        ),
        (
            "lengths are compared only under both counts",
            editor!(|entries, two| placed(entries, two, 3, |one, other| {
                let under = usize::from(one.count.min(other.count));
                (0..under).find(|&group| length(one, group) != length(other, group))
            })),
        ),
        (
            "kept flags are paddings",
            editor!(|entries, two| {
                let difference = flags_set(two, 1) - flags_set(two, 0);
                set_total(entries, 10, difference);
            }),
        ),
        (
            "kept flags are no raw operations",
            editor!(|entries, two| {
                let raw = |side| padded(two, side) - flags_set(two, side);
                set_total(entries, 9, raw(1) - raw(0));
            }),
        ),
        (
            "raw operations are the padded ones",
            editor!(|entries, two| set_total(entries, 9, padded(two, 1) - padded(two, 0))),
        ),
        (
            "the group count is not compared",
            editor!(|entries, _| entries.retain(|entry| entry[0] != 5)),
        ),
        (
            "the group count comes before the operation",
            editor!(|entries, _| {
                entries.sort_by_key(|entry| {
                    let order = [0, 1, 2, 3, 5, 4, 6, 7, 8, 9, 10];
                    let total = entry[0] > 6;
                    (total, entry[1], order[entry[0] as usize])
                });
            }),
        ),
        (
            "kind by kind, not batch by batch",
            editor!(|entries, _| entries.sort_by_key(|entry| (entry[0], entry[1]))),
        ),
        (
            "the totals come first",
            editor!(|entries, _| entries.sort_by_key(|entry| entry[0] < 7)),
        ),
        (
            "one entry for number, flag and length: the first group that differs in any",
            editor!(|entries, two| {
                for batch in 0..two.common() {
                    let three = |entry: &&Entry| entry[0] < 4 && entry[1] == batch as i32;
                    let first = entries.iter().filter(three).min_by_key(|entry| entry[2]);
                    let first = first.copied();
                    entries.retain(|entry| !three(&entry) || Some(*entry) == first);
                }
            }),
        ),
        (
            "it ends with the first batch that differs",
            editor!(|entries, _| {
                let first = entries.first().map_or(0, |entry| entry[1]);
                entries.retain(|entry| entry[0] > 6 || entry[1] == first);
            }),
        ),
    ]
}

/// What one block's refusal is.
fn refusal(two: &Two<'_>, side: usize) -> Option<(u8, usize)> {
    let read = &two.read[side];
    (read.number != 0).then_some((read.number, read.place))
}

/// Wrong refusals, and wrong outputs.
fn liars() -> Vec<(&'static str, Who)> {
    vec![
        (
            "the second's refusal where both are refused",
            liar!(
                |call, answer, two| match (refusal(two, 0), refusal(two, 1)) {
                    (Some(_), Some((number, place))) => refused(call, 2, number, place),
                    _ => answer,
                }
            ),
        ),
        (
            "the second's mark on the first's refusal where both are refused",
            liar!(|_, mut answer, two| {
                if refusal(two, 0).is_some() && refusal(two, 1).is_some() {
                    answer.mark = 2;
                }
                answer
            }),
        ),
        (
            "the lesser number where both are refused",
            liar!(
                |call, answer, two| match (refusal(two, 0), refusal(two, 1)) {
                    (Some(first), Some((number, place))) if number < first.0 => {
                        refused(call, 2, number, place)
                    }
                    _ => answer,
                }
            ),
        ),
        (
            "no mark",
            liar!(|_, mut answer, _| {
                answer.mark = 0;
                answer
            }),
        ),
        (
            "a mark on a report too short",
            liar!(|_, mut answer, _| {
                if answer.number == 13 && answer.mark == 0 {
                    answer.mark = 2;
                }
                answer
            }),
        ),
        (
            "a mark where nothing is refused",
            liar!(|_, mut answer, _| {
                if answer.number == 0 {
                    answer.mark = 1;
                }
                answer
            }),
        ),
        (
            "no place",
            liar!(|_, mut answer, _| {
                answer.place = 0;
                answer
            }),
        ),
        (
            "13 for a report of nothing before the second block is read",
            liar!(|call, answer, two| {
                let short = answer.report.len() < 4 && refusal(two, 0).is_none();
                match refusal(two, 1) {
                    Some(_) if short => refused(call, 0, 13, 0),
                    _ => answer,
                }
            }),
        ),
        (
            "13 leaves the entries that had room",
            liar!(|_, mut answer, two| {
                if answer.number == 13 && answer.mark == 0 {
                    let all = all_entries(two);
                    let whole = answer.report.len() / 4 * 4;
                    answer.report[..whole].copy_from_slice(&all.as_flattened()[..whole]);
                }
                answer
            }),
        ),
        (
            "13 says how many entries there would be",
            liar!(|_, mut answer, two| {
                if answer.number == 13 && answer.mark == 0 {
                    answer.rest[0] = all_entries(two).len();
                }
                answer
            }),
        ),
        (
            "numbers for entries",
            liar!(|_, mut answer, _| {
                answer.rest[0] *= 4;
                answer
            }),
        ),
        (
            "a part of an entry is room for it",
            liar!(|call, answer, two| {
                let all = all_entries(two);
                let numbers = answer.report.len();
                if answer.number != 13 || numbers.div_ceil(4) < all.len() || numbers % 4 == 0 {
                    return answer;
                }
                let mut full = refused(call, 0, 0, 0);
                full.rest[0] = all.len();
                full.report.copy_from_slice(&all.as_flattened()[..numbers]);
                full
            }),
        ),
        (
            "an entry less than there is room for",
            liar!(|call, answer, _| {
                if answer.number == 0
                    && answer.rest[0] > 0
                    && answer.report.len() == 4 * answer.rest[0]
                {
                    return refused(call, 0, 13, 0);
                }
                answer
            }),
        ),
        (
            "what is left over in a report is not zeroed",
            liar!(|_, mut answer, _| {
                if answer.report.len() % 4 != 0
                    && let Some(last) = answer.report.last_mut()
                {
                    *last = 9;
                }
                answer
            }),
        ),
        (
            "the entry after the last is not zeroed",
            liar!(|_, mut answer, _| {
                let at = 4 * answer.rest[0];
                if let Some(next) = answer.report.get_mut(at) {
                    *next = 9;
                }
                answer
            }),
        ),
        (
            "a refused block leaves the report as it was",
            liar!(|_, mut answer, _| {
                if answer.mark != 0 {
                    answer.report.fill(9);
                }
                answer
            }),
        ),
        (
            "the first's room is left as it was read",
            liar!(|_, mut answer, two| {
                let codes = &two.read[0].codes;
                answer.codes[..codes.len()].copy_from_slice(codes);
                answer
            }),
        ),
        (
            "the second's values are left as they were read",
            liar!(|_, mut answer, two| {
                let values = &two.read[1].values;
                let from = answer.values.len() - values.len();
                answer.values[from..].copy_from_slice(values);
                answer
            }),
        ),
        (
            "the second's room is not zeroed where the first is refused",
            liar!(|_, mut answer, two| {
                if answer.mark == 1 {
                    let from = two.sides[0].room.records;
                    answer.records[from..].fill(0xa5);
                }
                answer
            }),
        ),
        (
            "the last byte of the second's room is not zeroed after 13",
            liar!(|_, mut answer, _| {
                if answer.number == 13
                    && let Some(last) = answer.records.last_mut()
                {
                    *last = 0xa5;
                }
                answer
            }),
        ),
        (
            "the second is read under the first's table",
            liar!(|call, answer, two| {
                let [first, second] = two.sides;
                let table = first.table;
                again(call, answer, first, Source { table, ..second })
            }),
        ),
        (
            "the second is read from the first's place on",
            liar!(|call, answer, two| {
                let [first, second] = two.sides;
                let at = first.at;
                again(call, answer, first, Source { at, ..second })
            }),
        ),
        (
            "the second is read from the first's bytes",
            liar!(|call, answer, two| {
                let [first, second] = two.sides;
                let bytes = first.bytes;
                again(call, answer, first, Source { bytes, ..second })
            }),
        ),
        (
            "the two rooms are one for the other",
            liar!(|call, answer, two| {
                let [first, second] = two.sides;
                let one = Source {
                    room: second.room,
                    ..first
                };
                let other = Source {
                    room: first.room,
                    ..second
                };
                let swapped = again(call, answer.clone(), one, other);
                Answer {
                    mark: swapped.mark,
                    number: swapped.number,
                    place: swapped.place,
                    rest: swapped.rest,
                    report: swapped.report,
                    ..answer
                }
            }),
        ),
        (
            "the same bytes are the same block",
            liar!(|call, answer, two| match two.sides {
                [first, second]
                    if answer.number == 0
                        && (first.bytes, first.at) == (second.bytes, second.at) =>
                {
                    reported(call, &[])
                }
                _ => answer,
            }),
        ),
        (
            "strict reading: what is not finished is refused",
            liar!(|call, answer, two| {
                let [first, _] = two.sides;
                let strict = model::decode_strict(first.table, first.bytes, first.at, first.room);
                match strict.number {
                    18 => refused(call, 1, 18, strict.place),
                    _ => answer,
                }
            }),
        ),
    ]
}

/// The model's answer to another call.
fn again(call: Call<'_>, answer: Answer, first: Source<'_>, second: Source<'_>) -> Answer {
    match call {
        Call::Compare { report, .. } => model::compare(first, second, report),
        _ => answer,
    }
}

#[test]
fn each_of_these_is_stopped() {
    let mut all = editors();
    all.extend(liars());
    for (what, who) in all {
        for in_ports_place in [false, true] {
            let found = tried(who, in_ports_place).is_err();
            assert!(found, "not found: {what}, {in_ports_place}");
        }
    }
}
